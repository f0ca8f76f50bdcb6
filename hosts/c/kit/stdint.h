#pragma once
typedef __UINT64_TYPE__ uint64_t;
#define UINT64_C(x) x##UL
#define UINT32_MAX 4294967295U
