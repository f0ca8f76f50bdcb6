#pragma once
#define EXIT_FAILURE 1
#ifdef __cplusplus
extern "C"
#endif
    void
    exit(int);
