/* Each C file is compiled by three compilers into one program: NAME(x) is gcc_x, clang_x or kit_x. */
#ifndef NAMES_H
#define NAMES_H
#define JOIN_(a, b) a##b
#define JOIN(a, b) JOIN_(a, b)
#define NAME(x) JOIN(PREFIX, x)
#endif
