/* Handles that no encode gives, made from the IWKey itself: only they show that each test of a use is made at all. */
#ifndef FORGE_H
#define FORGE_H

#include "trial.h"

/* A handle of the origin, for the IWKey. Some origins start from an encoded handle. False if there is none for this IWKey. */
bool forge_handle(enum handle_origin origin, const struct iwkey *iwkey, const struct known_handle *known, struct known_handle *handle);

#endif
