#ifndef LOW_H
#define LOW_H
#define LOW 3
int low(void);
#endif
