#ifndef H
#define H
#define M(a, b) a ## b #b
int h;
#endif
