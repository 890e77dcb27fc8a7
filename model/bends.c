/* bends.c: which rule is bent. */
#include "bends.h"
#include "model.h"

uint32_t bent_rule = BEND_NONE;

#define BEND_ROW(area, name, text) {area, #name, text},
static const struct model_bent rows[] = {ALL_BENDS(BEND_ROW)};

void model_bend(uint32_t which)
{
    bent_rule = which;
}

const struct model_bent *model_bent_rule(uint32_t which)
{
    return which > BEND_NONE && which < BENDS ? &rows[which - 1] : NULL;
}
