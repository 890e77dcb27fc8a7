/* nulls.h: how many cases of nulls.c failed; each is printed. */
#ifndef NULLS_H
#define NULLS_H

long nulls_cases(void);

#endif
