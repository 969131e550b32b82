#!/usr/bin/env python3
"""Tests rows of the profile gnu by the program's output: variadic macros, wrapper headers, `__COUNTER__` and pushed macros as in gcc's manual,
directives among the arguments of a macro, the operands of pragmas, and `__has_include` and `__has_include_next`.

    tests/gnu_tests.py [PROGRAM] [-k NAME]

If a unit is ok, its tokens are those of gcc 12 with -std=gnu11, except for the trailing comma of `0, ## __VA_ARGS__` in the later profile, and
for what pushes a macro there and not here, or the other way round: other profiles, a prefix, a name with a space, `_Pragma` and other forms.
"""
import unittest

from counted import dumped, main
from row_tests import results

# Texts of a.c, and the result of a unit of it.
TEXTS = [
    # a named variadic parameter
    ("#define f(x...) [x]\nf(1, 2)\n", "[ 1 , 2 ] | 0 | ok"),
    ("#define f(x, y ...) x|y\nf(1, 2, 3)\n", "1 | 2 , 3 | 0 | ok"),
    ("#define f(x...) #x\nf(a ,  \"b\") f()\n", "\"a , \\\"b\\\"\" \"\" | 0 | ok"),
    ("#define f(x, x...) x\n", "| 0 | 11 0:1:1 f"),
    ("#define f(x..., y) x\n", "| 0 | 11 0:1:1 f"),
    ("#define f(...x) x\n", "| 0 | 11 0:1:1 f"),
    ("#define f(x... ...) x\n", "| 0 | 11 0:1:1 f"),
    ("#define f(__VA_ARGS__...) 1\n", "| 0 | 15 0:1:1 f"),
    ("#define f(x...) __VA_ARGS__\n", "| 0 | 15 0:1:1 f"),
    ("#define f(x...) # __VA_ARGS__\n", "| 0 | 15 0:1:1 f"),
    ("#define f(x...) # y\n", "| 0 | 14 0:1:1 f"),
    ("#define f(x...) x ##\n", "| 0 | 13 0:1:1 f"),
    # an absent variable argument
    ("#define f(a, ...) a|__VA_ARGS__|\nf(1) f(1,) f(1,2)\n", "1 | | 1 | | 1 | 2 | | 0 | ok"),
    ("#define f(a, ...) a|__VA_ARGS__|\nf() f( )\n", "| | | | | 0 | ok"),
    ("#define f(a, b, ...) a\nf(1,2) f(1)\n", "1 | 0 | 18 0:2:8 f"),
    ("#define f(a, b, ...) a\nf()\n", "| 0 | 18 0:2:1 f"),
    ("#define f(a, ...) #__VA_ARGS__ a ## __VA_ARGS__ __VA_ARGS__\nf(x) f(x,y)\n", "\"\" x \"y\" xy y | 0 | ok"),
    # the comma before a variable argument
    ("#define e(f, a...) p(f, ## a)\ne(1) e(1,) e(1,2) e(1,2,3)\n", "p ( 1 ) p ( 1 , ) p ( 1 , 2 ) p ( 1 , 2 , 3 ) | 0 | ok"),
    ("#define e(f, ...) p(f, ## __VA_ARGS__)\ne(1) e(1,) e(1,2)\n", "p ( 1 ) p ( 1 , ) p ( 1 , 2 ) | 0 | ok"),
    ("#define e(...) p(0, ## __VA_ARGS__)\ne() e( ) e(1) e(,)\n", "p ( 0 ) p ( 0 ) p ( 0 , 1 ) p ( 0 , , ) | 0 | ok"),
    ("#define E\n#define e(...) p(0, ## __VA_ARGS__)\ne(E)\n", "p ( 0 , ) | 0 | ok"),
    ("#define e(f, a...) p(f, ## a)\ne(1, e(2, 3))\n", "p ( 1 , e ( 2 , 3 ) ) | 0 | ok"),
    ("#define e(f, a...) p(f, ## a)\n#define X 7\ne(1, X, X)\n", "p ( 1 , 7 , 7 ) | 0 | ok"),
    ("#define e(f,a...) f,##a\n e(1) +\ne(1,  2, 3)+\n", "1 + 1 , 2 , 3 + | 0 | ok"),
    ("#define e(f,a...) f ,##a\ne(1)-\n#define n(a...) ,##a\n(n())\n", "1 - ( ) | 0 | ok"),
    ("#define e(x, V...) -x ,##V ,##V-\ne(1) e(1,2)\n", "- 1 - - 1 , 2 , 2 - | 0 | ok"),
    ("#define e(x, V...) x ## , ## V\ne(,b) e(,) e()\n", ", b , | 0 | ok"),
    ("#define e(x, V...) x ## , ## V\ne(1,b)\n", "| 0 | 19 0:2:1 1,"),
    ("#define e(x, V...) x , ## V ## y\ne(1)\n", "| 0 | 19 0:2:1 ,y"),
    ("#define e(x, V...) V , ## x\ne(1,2)\n", "| 0 | 19 0:2:1 ,1"),
    ("#define e(x, V...) x , ## V|V\n#define X 7\ne(1) e(1,X)\n", "1 | 1 , 7 | 7 | 0 | ok"),
    ("#define e(x, V...) x , ## V\n#define g e(1, g)\ng\ne(e, (2))(3)\n", "1 , g e , ( 2 ) ( 3 ) | 0 | ok"),
    ("#define e(x, V...) x V\n#if e(1)\nyes\n#endif\n", "yes | 0 | ok"),
    # `#include_next`
    ("#include_next\n", "| 0 | 30 0:1:1"),
    # directives that do nothing
    ("#warning old  header\n#ident \"x\"\n#sccs \"y\"\nz\n", "z | 0 | ok"),
    ("#warning don't\n#ident \"\nz\n", "z | 0 | ok"),
    ("#assert x(y)\n", "| 0 | 8 0:1:1 assert"),
    # a second definition of a name
    ("#define X 1\n#define X 2\nX\n", "2 | 0 | ok"),
    ("#define X(a) a\n#define X 2\nX(1)\n", "2 ( 1 ) | 0 | ok"),
    ("#define X 1\n#define X 1\nX\n", "1 | 0 | ok"),
    ("#define __FILE__ 1\n", "| 0 | 10 0:1:1 __FILE__"),
    ("#define X 1\n#define X a ##\nX\n", "| 0 | 13 0:2:1 X"),
    # `__has_include`
    ("#ifdef __has_include\n1\n#endif\n#if __has_include\n2\n#endif\n", "| 0 | ok"),
    ("#if __has_include(k.h)\n#endif\n", "| 0 | 30 0:1:1"),
    ("#if __has_include(\"k.h\"\n#endif\n", "| 0 | 30 0:1:1"),
    ("#if __has_include(\"/k.h\")\n#endif\n", "| 0 | 30 0:1:1"),
    ("#if defined __has_include (\"a.c\")\n#endif\n", "| 0 | 22 0:1:1"),
    ("#if defined 3 && __has_include(k)\n#endif\n", "| 0 | 30 0:1:1"),
    ("#define W(x) __has_include(x)\n#if W(\"a.c\")\n#endif\n", "| 0 | 23 0:2:1"),
    ("__has_include(\"a.c\")\n", "__has_include ( \"a.c\" ) | 0 | ok"),
    ("#if 0\n#elif __has_include(\"a.c\")\n1\n#endif\n", "1 | 0 | ok"),
    ("#define K k.h\n#if __has_include(K)\n#endif\n", "| 0 | 30 0:2:1"),
    ("#if __has_include()\n#endif\n", "| 0 | 30 0:1:1"),
    ("#define Q(x) \"a.c\"\n#if __has_include(Q(x)\n#endif\n", "| 0 | 30 0:2:1"),
    ("#define Q(x) \"a.c\"\n#if __has_include(Q)\n#endif\n", "| 0 | 30 0:2:1"),
    ("#define Q(x) \"a.c\"\n#if __has_include(Q())\n1\n#endif\n#if __has_include(Q(,))\n#endif\n", "1 | 0 | 18 0:5:19 Q"),
    ("#define P(x) <x##x>\n#define N(x) P(x)\n#if __has_include(N(__COUNTER__)) || __has_include(N(__COUNTER__))\n#endif\n__COUNTER__\n", "2 | 0 | ok"),
    ("#if __has_include_next\n#else\n1\n#endif\n", "1 | 0 | ok"),
    ("__has_include_next(\"h.h\")\n", "__has_include_next ( \"h.h\" ) | 0 | ok"),
    # `__STDC_VERSION__`
    ("__STDC_VERSION__\n#undef __STDC_VERSION__\n__STDC_VERSION__\n", "201112L __STDC_VERSION__ | 0 | ok"),
    ("#undef __STDC__\n", "| 0 | 10 0:1:1 __STDC__"),
    # `__COUNTER__`
    ("__COUNTER__ __COUNTER__\n__COUNTER__\n", "0 1 2 | 0 | ok"),
    ("#if __COUNTER__ == 0\n__COUNTER__\n#endif\n", "1 | 0 | ok"),
    ("#if 0 && __COUNTER__\n#endif\n__COUNTER__\n", "1 | 0 | ok"),
    ("#if 1\n#elif __COUNTER__\n#endif\n__COUNTER__\n", "0 | 0 | ok"),
    ("#ifdef __COUNTER__\n#if defined __COUNTER__ && defined(__COUNTER__)\n__COUNTER__\n#endif\n#endif\n", "0 | 0 | ok"),
    ("#if 0\n__COUNTER__\n#endif\n__COUNTER__\n", "0 | 0 | ok"),
    ("__COUNTER__ __COUNTER__\n#line __COUNTER__\n__LINE__ __COUNTER__\n", "0 1 2 3 | 0 | ok"),
    ("#define two(a) a a\ntwo(__COUNTER__) __COUNTER__\n", "0 0 1 | 0 | ok"),
    ("#define c(a, b) #a b ## a\nc(__COUNTER__, x) __COUNTER__\n", "\"__COUNTER__\" x__COUNTER__ 0 | 0 | ok"),
    ("#define c(a, b) a ## b\n#define d(a, b) c(a, b)\nd(x, __COUNTER__) d(x, __COUNTER__)\n", "x0 x1 | 0 | ok"),
    ("#define n(a)\nn(__COUNTER__) __COUNTER__\n", "0 | 0 | ok"),
    ("#define C __COUNTER__\nC C\n#define f(x) x C x\nf(C)\n", "0 1 2 3 2 | 0 | ok"),
    ("__COUNTER__\n#undef __COUNTER__\n__COUNTER__\n", "0 __COUNTER__ | 0 | ok"),
    ("#define __COUNTER__ 7\n__COUNTER__\n", "7 | 0 | ok"),
    # the order of arguments
    ("#define sw(a, b) b a\nsw(x __COUNTER__, y __COUNTER__)\n", "y 0 x 1 | 0 | ok"),
    ("#define f(a) a\n#define id(x, y) y x\nid(f(__COUNTER__), id(__COUNTER__, __COUNTER__))\n", "0 1 2 | 0 | ok"),
    ("#define m(a, b, c) #c a ## c c b a\nm(__COUNTER__, x __COUNTER__, y __COUNTER__)\n", "\"y __COUNTER__\" __COUNTER__y 3 y 0 x 1 2 | 0 | ok"),
    ("#define f(a) a\n#define g(a) a\n#define sw(a, b) b a\nsw(f(1,2), g(1,2))\n", "| 0 | 18 0:4:12 g"),
    # macros that are pushed and popped
    ("#define X 1\n#pragma push_macro(\"X\")\n#undef X\n#define X 2\nX\n#pragma pop_macro(\"X\")\nX\n", "pragma@0:2:1[ push_macro ( \"X\" ) ] 2 pragma@0:6:1[ pop_macro ( \"X\" ) ] 1 | 0 | ok"),
    ("#pragma push_macro(\"X\")\n#define X 2\nX\n#pragma pop_macro(\"X\")\nX\n", "pragma@0:1:1[ push_macro ( \"X\" ) ] 2 pragma@0:4:1[ pop_macro ( \"X\" ) ] X | 0 | ok"),
    ("#define X(a) [a]\n#pragma push_macro(\"X\")\n#define X 2\n#pragma push_macro(\"X\")\n#undef X\n#pragma push_macro(\"X\")\n#define X 4\nX\n#pragma pop_macro(\"X\")\nX\n#pragma pop_macro(\"X\")\nX\n#pragma pop_macro(\"X\")\nX(9)\n", "pragma@0:2:1[ push_macro ( \"X\" ) ] pragma@0:4:1[ push_macro ( \"X\" ) ] pragma@0:6:1[ push_macro ( \"X\" ) ] 4 pragma@0:9:1[ pop_macro ( \"X\" ) ] X pragma@0:11:1[ pop_macro ( \"X\" ) ] 2 pragma@0:13:1[ pop_macro ( \"X\" ) ] [ 9 ] | 0 | ok"),
    ("#define X 1\n#define Y 2\n#pragma push_macro(\"X\")\n#pragma push_macro(\"Y\")\n#define X 3\n#define Y 4\n#pragma pop_macro(\"X\")\nX Y\n#pragma pop_macro(\"Y\")\nX Y\n", "pragma@0:3:1[ push_macro ( \"X\" ) ] pragma@0:4:1[ push_macro ( \"Y\" ) ] pragma@0:7:1[ pop_macro ( \"X\" ) ] 1 4 pragma@0:9:1[ pop_macro ( \"Y\" ) ] 1 2 | 0 | ok"),
    ("#define X 1\n#pragma pop_macro(\"X\")\nX\n#pragma push_macro(\"X\")\n#pragma pop_macro(\"X\")\n#define X 2\n#pragma pop_macro(\"X\")\nX\n", "pragma@0:2:1[ pop_macro ( \"X\" ) ] 1 pragma@0:4:1[ push_macro ( \"X\" ) ] pragma@0:5:1[ pop_macro ( \"X\" ) ] pragma@0:7:1[ pop_macro ( \"X\" ) ] 2 | 0 | ok"),
    ("#define X 1\n#pragma push_macro(\"X\") x\n#define X 2\n#pragma pop_macro(\"X\") ;\nX\n", "pragma@0:2:1[ push_macro ( \"X\" ) x ] pragma@0:4:1[ pop_macro ( \"X\" ) ; ] 1 | 0 | ok"),
    ("#define X 1\n#pragma push_macro(\"X\")\n#define X 2\n#pragma pop_macro(X)\n#pragma pop_macro \"X\"\n#pragma pop_macro(\"X\"\n#pragma pop_macro()\n#pragma GCC pop_macro(\"X\")\nX\n", "pragma@0:2:1[ push_macro ( \"X\" ) ] pragma@0:4:1[ pop_macro ( X ) ] pragma@0:5:1[ pop_macro \"X\" ] pragma@0:6:1[ pop_macro ( \"X\" ] pragma@0:7:1[ pop_macro ( ) ] pragma@0:8:1[ GCC pop_macro ( \"X\" ) ] 2 | 0 | ok"),
    ("#define X 1\n#pragma push_macro(\"X\")\n#define X 2\n#pragma pop_macro(L\"X\")\nX\n", "pragma@0:2:1[ push_macro ( \"X\" ) ] pragma@0:4:1[ pop_macro ( L\"X\" ) ] 2 | 0 | ok"),
    ("#define X 1\n#define push_macro foo\n#define pop_macro foo\n#pragma push_macro(\"X\")\n#define X 2\n#pragma pop_macro(\"X\")\nX\n", "pragma@0:4:1[ push_macro ( \"X\" ) ] pragma@0:6:1[ pop_macro ( \"X\" ) ] 1 | 0 | ok"),
    ("__COUNTER__\n#pragma push_macro(\"__COUNTER__\")\n#pragma push_macro(\"__STDC_VERSION__\")\n#undef __COUNTER__\n#define __STDC_VERSION__ 0\n__COUNTER__ __STDC_VERSION__\n#pragma pop_macro(\"__COUNTER__\")\n#pragma pop_macro(\"__STDC_VERSION__\")\n__COUNTER__ __STDC_VERSION__\n", "0 pragma@0:2:1[ push_macro ( \"__COUNTER__\" ) ] pragma@0:3:1[ push_macro ( \"__STDC_VERSION__\" ) ] __COUNTER__ 0 pragma@0:7:1[ pop_macro ( \"__COUNTER__\" ) ] pragma@0:8:1[ pop_macro ( \"__STDC_VERSION__\" ) ] 1 201112L | 0 | ok"),
    ("#pragma push_macro(\"__LINE__\")\n#pragma pop_macro(\"__LINE__\")\n__LINE__\n#pragma push_macro(\"defined\")\n#pragma pop_macro(\"defined\")\n#if defined __LINE__\nx\n#endif\n", "pragma@0:1:1[ push_macro ( \"__LINE__\" ) ] pragma@0:2:1[ pop_macro ( \"__LINE__\" ) ] 3 pragma@0:4:1[ push_macro ( \"defined\" ) ] pragma@0:5:1[ pop_macro ( \"defined\" ) ] x | 0 | ok"),
    ("#define X 1\n#pragma push_macro(\"X\")\n#define X 2\n#if 0\n#pragma pop_macro(\"X\")\n#endif\nX\n", "pragma@0:2:1[ push_macro ( \"X\" ) ] 2 | 0 | ok"),
    ("#define X 1\n#pragma push_macro(\"X \")\n#undef X\n#pragma pop_macro(\"X \")\nX\n#pragma push_macro(\"\")\n#pragma pop_macro(\"1\")\n", "pragma@0:2:1[ push_macro ( \"X \" ) ] pragma@0:4:1[ pop_macro ( \"X \" ) ] X pragma@0:6:1[ push_macro ( \"\" ) ] pragma@0:7:1[ pop_macro ( \"1\" ) ] | 0 | ok"),
    ("#define X 1\n_Pragma(\"push_macro(\\\"X\\\")\")\n#define X 2\n_Pragma(\"pop_macro(\\\"X\\\")\")\nX\n", "_Pragma ( \"push_macro(\\\"X\\\")\" ) _Pragma ( \"pop_macro(\\\"X\\\")\" ) 2 | 0 | ok"),
    # macros in the operands of pragmas
    ("#define N 4\n#define f(x) [x]\n#pragma message N  f( N )N\n", "pragma@0:3:1[ message 4 [ 4 ] 4 ] | 0 | ok"),
    ("#define N 4\n#pragma redefine_extname N M\n", "pragma@0:2:1[ redefine_extname 4 M ] | 0 | ok"),
    ("#define N 4\n#pragma omp for num_threads(N)\n#pragma acc N\n", "pragma@0:2:1[ omp for num_threads ( N ) ] pragma@0:3:1[ acc N ] | 0 | ok"),
    ("#define N 4\n#define _OPENMP 1\n#pragma omp for num_threads(N)\n#pragma acc N\n", "pragma@0:3:1[ omp for num_threads ( 4 ) ] pragma@0:4:1[ acc N ] | 0 | ok"),
    ("#define N 4\n#define _OPENACC 1\n#pragma omp N\n#pragma acc N\n", "pragma@0:3:1[ omp N ] pragma@0:4:1[ acc 4 ] | 0 | ok"),
    ("#define N 4\n#pragma message\n#pragma N N\n#pragma GCC message N\n#pragma\n", "pragma@0:2:1[ message ] pragma@0:3:1[ N N ] pragma@0:4:1[ GCC message N ] pragma@0:5:1[ ] | 0 | ok"),
    ("#define message N\n#define N 4\n#pragma message message\n", "pragma@0:3:1[ message 4 ] | 0 | ok"),
    ("#pragma message __COUNTER__ __COUNTER__\n__COUNTER__\n", "pragma@0:1:1[ message 0 1 ] 2 | 0 | ok"),
    ("#define f(x) [x]\na\n#pragma message b f(1\n)\n", "a | 0 | 17 0:3:19 f"),
    ("#pragma message '\n", "| 0 | 7 0:1:17 '"),
    ("#define f(x, y) x ## y\n#pragma message f(+, x)\n", "| 0 | 19 0:2:17 +x"),
    ("#define X 1\n#define f(x) [x]\n#pragma push_macro(\"X\")\n#define X 2\nX f(X\n#pragma pop_macro(\"X\")\nX)\n", "pragma@0:3:1[ push_macro ( \"X\" ) ] 2 pragma@0:6:1[ pop_macro ( \"X\" ) ] [ 1 1 ] | 0 | ok"),
    ("#define f(x) [x]\nf(1\n#pragma push_macro(\"f\")\n2)\n#define f 3\n#pragma pop_macro(\"f\")\nf(4)\n", "pragma@0:3:1[ push_macro ( \"f\" ) ] [ 1 2 ] pragma@0:6:1[ pop_macro ( \"f\" ) ] [ 4 ] | 0 | ok"),
    ("#define f(x) [x]\n#pragma push_macro(\"f\")\nf(1\n#pragma pop_macro(\"f\")\n2)\n", "pragma@0:2:1[ push_macro ( \"f\" ) ] | 0 | 17 0:3:1 f"),
    # directives among the arguments of a macro
    ("#define f(x) [x]\na f(1\n#define Q 7\nQ) b\n", "a [ 1 7 ] b | 0 | ok"),
    ("#define struct_group(N, M...) union { struct { M } ; struct { M } N ; }\nstruct_group(headers,\n  int a;\n#ifdef X\n  int b;\n#else\n  int c;\n#endif\n  int d;\n)\n", "union { struct { int a ; int c ; int d ; } ; struct { int a ; int c ; int d ; } headers ; } | 0 | ok"),
    ("#define f(x, y...) [x|y]\nf(1\n#ifdef X\n, 2)\n#else\n)\n#endif\n3\n", "[ 1 | ] 3 | 0 | ok"),
    ("#define f(x) [x]\n#if 1\nf(1\n#else\n2\n#endif\n) 3\n", "[ 1 ] 3 | 0 | ok"),
    ("#define f(x) [x]\nf(1\n#if 1\n) 2\n#endif\n", "[ 1 ] 2 | 0 | ok"),
    ("#define f(x) [x]\nf(1\n#if 0\n2\n#elif 1\n3\n#endif\n)\n", "[ 1 3 ] | 0 | ok"),
    ("#define X 1\n#define f(x) [x]\nX f(X\n#define X 2\nX) X\n", "1 [ 2 2 ] 2 | 0 | ok"),
    ("#define f(x) [x]\n#define g(x, y) <x y>\nf(g(1,\n#define X 7\n2) g(\n#define Y 8\nX, Y)\n# \n)\n", "[ < 1 2 > < 7 8 > ] | 0 | ok"),
    ("#define f(x) [x]\nf(1\n#define X 2\n) f(X\n#define X 3\nX) X\n", "[ 1 ] [ 3 3 ] 3 | 0 | ok"),
    ("#define f(x) [x]\nf(g\n#define g(x) <x>\n(1)) g\n#undef g\n(2)\n", "[ < 1 > ] g ( 2 ) | 0 | ok"),
    ("#define f(x) [x]\n#define LOG f\nLOG(LOG\n#undef LOG\nLOG) LOG\n", "[ LOG LOG ] LOG | 0 | ok"),
    ("#define f(x) [x]\n#define g(x) x f\ng(1)(2\n#define g 5\ng)\n", "1 [ 2 5 ] | 0 | ok"),
    ("#define f(x) [x]\n#define O __COUNTER__ f\nO(__COUNTER__\n#define Q\n2) __COUNTER__\n", "0 [ 1 2 ] 2 | 0 | ok"),
    ("#define f(x) [x]\n#define O f(\nO 1\n#define Q\n2)\n", "| 0 | 17 0:3:1 f"),
    ("#define f(x) [x]\n#define O f(\nO 1\n2)\n", "[ 1 2 ] | 0 | ok"),
    ("#define f(x) [x]\nf\n#define Q\n(1)\n", "f ( 1 ) | 0 | ok"),
    ("#define f(x) [x]\nf(1\n#define f(x) <x>\n2) f(3)\n", "| 0 | 17 0:2:1 f"),
    ("#define f(x) [x]\nf(1\n#undef f\n2)\n", "| 0 | 17 0:2:1 f"),
    ("#define f(x) [x]\n#define O f\nO(1\n#define O 2\nO) O\n", "[ 1 2 ] 2 | 0 | ok"),
    ("#define f(x) [x]\nf(1\n#include\n)\n", "| 0 | 17 0:2:1 f"),
    ("#define f(x) [x]\nf(1\n#if 0\n#include \"h.h\"\n#endif\n)\n", "[ 1 ] | 0 | ok"),
    ("#define f(x) [x]\nf(1\n#line 7\n)\n", "| 0 | 17 0:2:1 f"),
    ("#define f(x) [x]\na\n f(1\n#define Q\n2\n", "a | 0 | 17 0:3:2 f"),
    ("#define f(x) [x]\nf(1\n#define Q\n", "| 0 | 17 0:2:1 f"),
    ("#define f(x) [x]\na f(1\n#pragma p X\n2) b\n", "a pragma@0:3:1[ p X ] [ 1 2 ] b | 0 | ok"),
    ("#define f(x) [x]\na f(1\n#error no\n)\n", "a | 0 | 34 0:3:1 no"),
    ("#define f(x) [x]\nf(1\n#foo\n)\n", "| 0 | 8 0:3:1 foo"),
    ("#define f(x) [x]\nf(1\n#include '\n)\n", "| 0 | 7 0:3:10 '"),
    ("#define f(x) [x]\nf(1\n#define Q\n2 ' )\n", "| 0 | 7 0:4:3 '"),
    ("#define f(x) [x]\nf(1 '\n#define Q\n2)\n", "| 0 | 7 0:2:5 '"),
    ("#define f(x) [x]\nf(1\n#\n#warning w\n2)\n", "[ 1 2 ] | 0 | ok"),
    ("#define f(x) [x]\nf(1\n#define Q\n, 2)\n", "| 0 | 18 0:2:1 f"),
    ("#define f(x) [x]\n#if f(1\n#endif\n)\n", "| 0 | 17 0:2:5 f"),
    ("#define f(x) [x]\n#define X 1\nf(2\n#if f(X\n#endif\n)\n", "| 0 | 17 0:4:5 f"),
    ("#define f(x) [x]\n#define O f(\n#define id(x) x\nid(O 1\n#define Q\n)\n", "| 0 | 17 0:4:4 f"),
    ("#define S(x...) #x\n#define T(x...) S(x)\nT(a\n#define Q\nb ,\n#undef Q\n c\n# \n-) S( a\n#define Q\n) S\n(b\n#undef Q\nc)\n", "\"a b , c -\" \"a\" \"b c\" | 0 | ok"),
    ("#define f(x) [x]\n#define E\n#define g(x) f x\n E f(1\n#define Q\n) g() (2\n#undef Q\n)\n", "[ 1 ] [ 2 ] | 0 | ok"),
    ("#define f(x) [x]\n__LINE__ f(__LINE__\n#define Q\n__LINE__\n) __LINE__\n", "2 [ 2 4 ] 5 | 0 | ok"),
    ("#define f(x) [x]\nf(__COUNTER__\n#if __COUNTER__ == 0\n__COUNTER__\n#endif\n) __COUNTER__\n", "[ 1 2 ] 3 | 0 | ok"),
    ("#define f(x) [x]\nf(1\n#if __has_include(\"a.c\")\n2\n#endif\n)\n", "[ 1 2 ] | 0 | ok"),
    ("#define log(f, a...) p(f, ## a)\nlog(\"x\"\n#ifdef Q\n, 1\n#endif\n) log(\"y\"\n#ifndef Q\n, 2\n#endif\n)\n", "p ( \"x\" ) p ( \"y\" , 2 ) | 0 | ok"),
    ("#define f(x) [x]\n#define P(a, b) a ## b\nx P(, f)(1\n#define Q 2\nQ\n# \n)\n", "x [ 1 2 ] | 0 | ok"),
    # `__VA_OPT__`
    ("#define f(a, b, ...) __VA_OPT__(b) a\nf(__COUNTER__, __COUNTER__, 1)\n", "0 1 | 0 | ok"),
    ("#define f(a, ...) __VA_OPT__(x) a\nf(__COUNTER__, __COUNTER__) __COUNTER__\n", "x 0 2 | 0 | ok"),
    ("#define f(a, ...) __VA_OPT__(x) __VA_ARGS__ a\nf(__COUNTER__, __COUNTER__)\n", "x 0 1 | 0 | ok"),
    ("#define f(a, ...) g(a __VA_OPT__(,) __VA_ARGS__)\nf(1) f(1,) f(1,2) f(1,2,3)\n", "g ( 1 ) g ( 1 ) g ( 1 , 2 ) g ( 1 , 2 , 3 ) | 0 | ok"),
    ("#define E\n#define f(...) <__VA_OPT__(x)>\nf(E) f() f(E E) f(E 1) f(,)\n", "< > < > < > < x > < x > | 0 | ok"),
    ("#define f(...) <__VA_OPT__(x)>\n#define g() \nf(g()) f(g) f(f())\n", "< > < x > < x > | 0 | ok"),
    ("#define f(a, ...) __VA_OPT__()\nf(1,2) f(1) x\n", "x | 0 | ok"),
    ("#define f(a, v...) <__VA_OPT__(a v)>\nf(1,2) f(1)\n", "< 1 2 > < > | 0 | ok"),
    ("#define f(...) __VA_OPT__((,)) __VA_OPT__(()())\nf(1)\n", "( , ) ( ) ( ) | 0 | ok"),
    ("#define f(...) __VA_OPT__ (a)\nf(1)\n", "a | 0 | ok"),
    ("#define X 7\n#define f(a, ...) __VA_OPT__(a __VA_ARGS__)\nf(X, X)\n", "7 7 | 0 | ok"),
    ("#define g(x) x+\n#define f(...) __VA_OPT__(g)(1)\nf(a) f()\n", "1 + ( 1 ) | 0 | ok"),
    ("#define f(a, ...) __VA_OPT__(a ## 1 b ## a)\n#define X 7\nf(X, 2) f(, 2)\n", "X1 bX 1 b | 0 | ok"),
    ("#define f(a, ...) __VA_OPT__(#a #__VA_ARGS__)\nf(x  y, 1 , 2)\n", "\"x y\" \"1 , 2\" | 0 | ok"),
    ("#define f(a, ...) a ## __VA_OPT__(a b)\n#define X 7\nf(X, 2) f(X)\n", "X7 b 7 | 0 | ok"),
    ("#define f(a, ...) __VA_OPT__(b a) ## c\n#define X 7\nf(X, 2) f(X)\n", "b 7c c | 0 | ok"),
    ("#define f(x, ...) a ## __VA_OPT__(x b) ## c\nf(1,2) f(,2) f(1)\n", "a1 bc a bc ac | 0 | ok"),
    ("#define f(x, ...) a ## __VA_OPT__() ## c\nf(1,2) f(1)\n", "ac ac | 0 | ok"),
    ("#define f(x, y, ...) a ## __VA_OPT__(x y) ## c\nf(,1,2)\n", "a 1c | 0 | ok"),
    ("#define f(x, y, ...) a ## __VA_OPT__(x y) ## c\nf(1,,2)\n", "a1 c | 0 | ok"),
    ("#define f(x, ...) a ## __VA_OPT__(x) ## c\nf(,2) f(1,2)\n", "ac a1c | 0 | ok"),
    ("#define E\n#define f(x, y, ...) a ## __VA_OPT__(x y) ## c\nf(,,2) f(E,E,2)\n", "a c a c | 0 | ok"),
    ("#define f(x, ...) [__VA_OPT__(x ## x) ## __VA_OPT__(x ## x)]\nf(,3) f(1,3) f(1)\n", "[ ] [ 1111 ] [ ] | 0 | ok"),
    ("#define f(x, ...) x ## __VA_OPT__(,)\nf(1) f(1,2)\n", "1 | 0 | 19 0:2:6 1,"),
    ("#define f(x, ...) # __VA_OPT__( x  b __VA_ARGS__ )\nf(1,2) f(1) f( ,\"a\")\n", "\"1 b 2\" \"\" \"b \\\"a\\\"\" | 0 | ok"),
    ("#define f(x, ...) L ## #__VA_OPT__(x x)\nf(a,b) f(a)\n", "L\"a a\" L\"\" | 0 | ok"),
    ("#define f(x, ...) #__VA_OPT__(x ## x   x##x)\nf(,0) f(a,b) f()\n", "\"\" \"aa aa\" \"\" | 0 | ok"),
    ("#define f(...) [ #__VA_OPT__(a)\nf(1)\n", "[ \"a\" | 0 | ok"),
    ("#define f(...) #__VA_OPT__(\\)\nf(1)\n", "| 0 | 20 0:2:1 \"\\\""),
    ("#define H4(X, ...) __VA_OPT__(a X ## X) ## b\n#define H5A(...) __VA_OPT__()/**/__VA_OPT__()\n#define H5B(X) a ## X ## b\n#define H5C(X) H5B(X)\nH4(, 1) H5C(H5A())\n", "a b ab | 0 | ok"),
    ("#define f(a, ...) p(a __VA_OPT__(, ## __VA_ARGS__))\n#define X 7\nf(1) f(1,) f(1,X) f(1,f(2,3))\n", "p ( 1 ) p ( 1 ) p ( 1 , 7 ) p ( 1 , f ( 2 , 3 ) ) | 0 | ok"),
    ("#define f(a, v...) p(a __VA_OPT__(, ## v))\nf(1) f(1,) f(1,2,3)\n", "p ( 1 ) p ( 1 ) p ( 1 , 2 , 3 ) | 0 | ok"),
    ("#define f(a, ...) p(a __VA_OPT__(,) ## __VA_ARGS__)\n#define X 7\nf(1) f(1,) f(1,2) f(1,X,3) f(1,f(2,3))\n", "p ( 1 ) p ( 1 ) p ( 1 , 2 ) p ( 1 , 7 , 3 ) p ( 1 , f ( 2 , 3 ) ) | 0 | ok"),
    ("#define E\n#define f(a, ...) a ## __VA_OPT__(b ,) ## __VA_ARGS__\nf(1) f(1,2) f(,2) f(1,E)\n", "1 1b , 2 b , 2 1E | 0 | ok"),
    ("#define f(a, ...) __VA_OPT__(, a) ## __VA_ARGS__\nf(1) f(1,2)\n", ", 12 | 0 | ok"),
    ("#define S(...) #__VA_ARGS__\n#define T(...) S(__VA_ARGS__)\n#define A(x, ...) [__VA_OPT__( x)y]\nT(A(1,2)) T(A(1)) T(A(,2))\n#define B(x, ...) [ __VA_OPT__(x )y]\nT(B(1,2)) T(B(1)) T(B(,2))\n", "\"[1y]\" \"[y]\" \"[y]\" \"[ 1y]\" \"[ y]\" \"[ y]\" | 0 | ok"),
    ("#define S(...) #__VA_ARGS__\n#define T(...) S(__VA_ARGS__)\n#define A(x, ...) [__VA_OPT__(a x)y]\nT(A(1,2)) T(A(1)) T(A(,2))\n#define B(x, ...) [__VA_OPT__(x b)y]\nT(B(1,2)) T(B(,2))\n", "\"[a 1y]\" \"[y]\" \"[a y]\" \"[1 by]\" \"[ by]\" | 0 | ok"),
    ("#define S(...) #__VA_ARGS__\n#define T(...) S(__VA_ARGS__)\n#define A(x, ...) [__VA_OPT__(x b) ## c]\nT(A(1,2)) T(A(,2))\n#define B(x, ...) [a ## __VA_OPT__(b x)##c]\nT(B(1,2)) T(B(,2))\n#define C(x, ...) [x __VA_OPT__(x)##x]\nT(C(,3)) T(C(1,3)) T(C(1))\n", "\"[1 bc]\" \"[ bc]\" \"[ab 1c]\" \"[ab c]\" \"[ ]\" \"[1 11]\" \"[1 1]\" | 0 | ok"),
    ("#define f(x,...) x __VA_OPT__(-x y)##z\n(f(1,2) f(,2)f(1))\n", "( 1 - 1 yz - yz 1 z ) | 0 | ok"),
    ("#define f(...) f __VA_OPT__((__VA_ARGS__))\nf(f(1)) f(f()) f(f(),f)\n", "f ( f ( 1 ) ) f ( f ) f ( f , f ) | 0 | ok"),
    ("#define g(a, b) [a|b]\n#define f(...) g(1 __VA_OPT__(,) __VA_ARGS__)\nf(2) f(f(3))\n", "[ 1 | 2 ] [ 1 | [ 1 | 3 ] ] | 0 | ok"),
    ("#define f(...) <__VA_OPT__(h __VA_ARGS__)>\n#define h(x) f x\nf(h()) h((1)) f(f(f()))\n", "< h f > < h 1 > < h < h < > > > | 0 | ok"),
    ("#define f(x, ...) x __VA_OPT__(+ 1)\n#if f(1, 2) == 2 && f(0) == 0\nyes\n#endif\n", "yes | 0 | ok"),
    ("#define f(...) __VA_OPT__ x\n", "| 0 | 15 0:1:1 f"),
    ("#define f(...) x __VA_OPT__\n", "| 0 | 15 0:1:1 f"),
    ("#define f(...) __VA_OPT__(a (b)\n", "| 0 | 15 0:1:1 f"),
    ("#define f(...) __VA_OPT__(a __VA_OPT__(b))\n", "| 0 | 15 0:1:1 f"),
    ("#define f(x) __VA_OPT__(x)\n", "| 0 | 15 0:1:1 f"),
    ("#define X __VA_OPT__(x)\n", "| 0 | 15 0:1:1 X"),
    ("#define f(x, ...) __VA_OPT__(## x)\n", "| 0 | 13 0:1:1 f"),
    ("#define f(x, ...) __VA_OPT__(x ##)\n", "| 0 | 13 0:1:1 f"),
    ("#define f(x, ...) __VA_OPT__(x) ##\n", "| 0 | 13 0:1:1 f"),
    ("#define f(x, ...) __VA_OPT__(# y)\n", "| 0 | 14 0:1:1 f"),
    ("#define f(x, ...) __VA_OPT__(x #)\n", "| 0 | 14 0:1:1 f"),
    ("#define f(x) ## __VA_OPT__(x)\n", "| 0 | 15 0:1:1 f"),
    ("#define __VA_OPT__ 1\n", "| 0 | 10 0:1:1 __VA_OPT__"),
    ("#define f(__VA_OPT__) 1\n", "| 0 | 15 0:1:1 f"),
    ("#define f(__VA_OPT__...) 1\n", "| 0 | 15 0:1:1 f"),
    ("#undef __VA_OPT__\n", "| 0 | 10 0:1:1 __VA_OPT__"),
    ("__VA_OPT__(x) y\n", "__VA_OPT__ ( x ) y | 0 | ok"),
    ("#define f(...) __VA_OPT__(x)\n#define f(...) __VA_OPT__( x)\nf(1)\n", "x | 0 | ok"),
    # trigraphs, of which none is replaced
    ("\"???)\" ??= x\n", "\"???)\" ? ? = x | 0 | ok"),
    ("'??/'\n", "'??/' | 0 | ok"),
    ("a ??/\nb\n", "a ? ? / b | 0 | ok"),
    ("// a ??/\nb\n", "b | 0 | ok"),
    ("a ??/\n", "a ? ? / | 0 | ok"),
    ("a ??/", "a ? ? / | 0 | ok"),
    ("??=define X 1\nX\n", "? ? = define X 1 X | 0 | ok"),
    ("#define S(x) #x\nS(??) S(\"??/\")\n", "\"??\" \"\\\"??/\\\"\" | 0 | ok"),
    # all of the above in the later profile
    ("#if 0\n#elifdef __STDC__\n1\n#endif\n#pragma once\n", "1 pragma@0:5:1[ once ] | 0 | ok"),
]
# The same for other profiles.
OTHERS = [
    ("c11", "\"???)\" ??= x\n", "\"?]\" # x | 0 | ok"),
    ("later", "\"???)\" ??= x\n", "\"?]\" # x | 0 | ok"),
    ("c11", "a ??/\nb\n", "a b | 0 | ok"),
    ("later", "a ??/\nb\n", "a b | 0 | ok"),
    ("c11", "// a ??/\nb\n", "| 0 | ok"),
    ("c11", "a ??/\n", "| 0 | 2 0:1:3"),
    ("c11", "??=define X 1\nX\n", "1 | 0 | ok"),
    ("later", "#define f(x...) x\n", "| 0 | 11 0:1:1 f"),
    ("c11", "#define f(a, ...) a\nf(1)\n", "| 0 | 18 0:2:1 f"),
    ("later", "#define f(a, ...) a\nf(1)\n", "| 0 | 18 0:2:1 f"),
    ("later", "#define e(...) 0, ## __VA_ARGS__\ne()\n", "0 , | 0 | ok"),
    ("later", "#define e(...) 0, ## __VA_ARGS__\ne(1)\n", "| 0 | 19 0:2:1 ,1"),
    ("later", "#warning x\n", "| 0 | 8 0:1:1 warning"),
    ("later", "#define X 1\n#define X 2\n", "| 0 | 16 0:2:1 X"),
    ("later", "#define X 1\n#pragma push_macro(\"X\")\n#undef X\n#pragma pop_macro(\"X\")\nX\n", "pragma@0:2:1[ push_macro ( \"X\" ) ] pragma@0:4:1[ pop_macro ( \"X\" ) ] X | 0 | ok"),
    ("c11", "#define X 1\n#pragma push_macro(\"X\")\n#undef X\n#pragma pop_macro(\"X\")\nX\n", "pragma@0:2:1[ push_macro ( \"X\" ) ] pragma@0:4:1[ pop_macro ( \"X\" ) ] X | 0 | ok"),
    ("later", "#define f(x) [x]\nf(1\n#define Q\n)\n", "| 0 | 17 0:2:1 f"),
    ("c11", "#define f(x) [x]\nf(1\n#define Q\n)\n", "| 0 | 17 0:2:1 f"),
    ("later", "#if __has_include(\"a.c\")\n1\n#endif\n", "| 0 | 23 0:1:1"),
    ("later", "#if __has_include_next(\"a.c\")\n#endif\n", "| 0 | 23 0:1:1"),
    ("later", "__COUNTER__\n#ifdef __COUNTER__\n1\n#endif\n", "__COUNTER__ | 0 | ok"),
    ("c11", "#define f(a) a\n#define g(a) a\n#define sw(a, b) b a\nsw(f(1,2), g(1,2))\n", "| 0 | 18 0:4:4 f"),
    ("later", "#define f(a) a\n#define g(a) a\n#define sw(a, b) b a\nsw(f(1,2), g(1,2))\n", "| 0 | 18 0:4:4 f"),
]
# Files, the members of a unit of the first file, the members that all units share, and the result.
LISTS = [
    # `#include_next`
    ([
        ("a.c", "#include <h.h>\n"),
        ("one/h.h", "1\n#include_next <h.h>\n"),
        ("two/h.h", "2\n#include_next \"h.h\"\n"),
        ("three/h.h", "3\n"),
    ], {"search": ["one", "two", "three"]}, {}, "1 2 3 | 0 1 2 3 | ok"),
    ([
        ("a.c", "#include <h.h>\n"),
        ("one/h.h", "1\n#include_next <h.h>\n"),
        ("two/h.h", "2\n#include_next \"h.h\"\n"),
    ], {"search": ["one", "two"]}, {}, "1 2 | 0 1 2 | 31 2:2:1 h.h"),
    ([
        ("a.c", "#include <h.h>\n"),
        ("one/h.h", "1\n#include_next <h.h>\n"),
        ("two/h.h", "2\n#include_next \"h.h\"\n"),
        ("three/h.h", "3\n"),
    ], {"search": ["one"]}, {"search": ["two", "three"]}, "1 2 3 | 0 1 2 3 | ok"),
    ([
        ("src/a.c", "#include \"h.h\"\n"),
        ("src/h.h", "0\n#include_next \"h.h\"\n"),
        ("one/h.h", "1\n#include_next <h.h>\n"),
        ("two/h.h", "2\n#include_next \"h.h\"\n"),
        ("three/h.h", "3\n"),
    ], {"search": ["one", "two", "three"]}, {}, "0 1 2 3 | 0 1 2 3 4 | ok"),
    ([
        ("src/a.c", "#include \"h.h\"\n"),
        ("src/h.h", "0\n#include_next \"k.h\"\n"),
        ("src/k.h", "9\n"),
    ], {"search": ["one"]}, {}, "0 | 0 1 | 31 1:2:1 k.h"),
    ([
        ("src/a.c", "#include_next \"k.h\"\n"),
        ("src/k.h", "9\n"),
        ("one/k.h", "1\n"),
    ], {"search": ["one"]}, {}, "9 | 0 1 | ok"),
    ([
        ("a.c", "#include <h.h>\n"),
        ("one/h.h", "#include_next <k.h>\n"),
        ("one/k.h", "1\n"),
        ("two/k.h", "2\n"),
    ], {"search": ["one", "two"]}, {}, "2 | 0 1 3 | ok"),
    ([
        ("a.c", "#include \"one/h.h\"\n#include <h.h>\n"),
        ("one/h.h", "#include_next <k.h>\n"),
        ("one/k.h", "1\n"),
        ("two/k.h", "2\n"),
    ], {"search": ["one", "two"]}, {}, "1 2 | 0 1 2 3 | ok"),
    ([
        ("a.c", "#define K <k.h>\n#include <h.h>\n"),
        ("one/h.h", "#include_next K\n"),
        ("two/k.h", "2\n"),
    ], {"search": ["one", "two"]}, {}, "2 | 0 1 2 | ok"),
    ([
        ("a.c", "#include <h.h>\n"),
        ("one/h.h", "#include_next <k'//.h>\n"),
        ("two/k'/.h", "2\n"),
    ], {"search": ["one", "two"]}, {}, "2 | 0 1 2 | ok"),
    ([
        ("a.c", "#include_next \"h.h\" x\n"),
        ("h.h", ""),
    ], {}, {}, "| 0 | 30 0:1:1"),
    ([
        ("a.c", "#include <h.h>\n"),
        ("one/h.h", "1\n#include_next <h.h>\n"),
        ("two/h.h", "2\n#include_next \"h.h\"\n"),
        ("three/h.h", "3\n"),
    ], {"search": ["one", "two", "three"]}, {"budget": 3}, "1 2 | 0 1 2 | 35 2:2:1"),
    ([
        ("a.c", "#include <h.h>\n"),
        ("one/h.h", "1\n#include_next <h.h>\n"),
    ], {"search": ["one", "one"]}, {}, "1 1 | 0 1 | 31 1:2:1 h.h"),
    ([
        ("a.c", "#include <h.h>\n#include <h.h>\n"),
        ("one/h.h", "#ifndef H\n#define H\n#include_next <h.h>\n#endif\n"),
        ("two/h.h", "2\n"),
    ], {"search": ["one", "two"]}, {}, "2 | 0 1 2 | ok"),
    ([
        ("a.c", "#include <h.h>\n#include <h.h>\n"),
        ("one/h.h", "#pragma once\n#include_next <h.h>\n"),
        ("two/h.h", "2\n"),
    ], {"search": ["one", "two"]}, {}, "pragma@1:1:1[ once ] 2 | 0 1 2 | ok"),
    ([
        ("a.c", "#include_next \"h.h\"\n"),
        ("h.h", ""),
    ], {}, {"profile": "later"}, "| 0 | 8 0:1:1 include_next"),
    # a second definition of a name
    ([
        ("a.c", "X\n"),
    ], {"define": ["X 1", "X 2"]}, {}, "2 | 0 | ok"),
    # `__has_include`
    ([
        ("a.c", "#if __has_include(\"k.h\") && __has_include(<k.h>)\n1\n#endif\n#if __has_include ( \"no.h\" ) || __has_include(<no.h>)\n2\n#else\n3\n#endif\n"),
        ("inc/k.h", ""),
    ], {"define": ["__has_include __has_include"], "search": ["inc"]}, {}, "1 3 | 0 | ok"),
    ([
        ("src/a.c", "#if __has_include(\"k.h\") && !__has_include(<k.h>)\n1\n#endif\n"),
        ("src/k.h", ""),
    ], {"define": ["__has_include __has_include"]}, {}, "1 | 0 | ok"),
    ([
        ("a.c", "#if __has_include(\"k.h\")\n1\n#endif\n"),
        ("k.h", "/* x"),
    ], {}, {}, "1 | 0 | ok"),
    ([
        ("a.c", "#define k 7\n#if __has_include(<k.h>)\n1\n#endif\n"),
        ("inc/k.h", ""),
    ], {"search": ["inc"]}, {}, "1 | 0 | ok"),
    ([
        ("a.c", "#ifdef __has_include\n1\n#endif\n#if defined __has_include && defined(__has_include)\n2\n#endif\n"),
    ], {"define": ["__has_include __has_include"]}, {}, "1 2 | 0 | ok"),
    ([
        ("a.c", "#if __has_include(\"a.c\")\n1\n#endif\n"),
    ], {}, {"budget": 1}, "1 | 0 | ok"),
    ([
        ("a.c", "#define K <k.h>\n#if __has_include(K)\n1\n#endif\n#define J \"j.h\"\n#if __has_include(J)\n2\n#endif\n"),
        ("inc/k.h", ""),
    ], {"search": ["inc"]}, {}, "1 | 0 | ok"),
    ([
        ("a.c", "#define Q(x) <x>\n#if __has_include(Q(k.h)) && !__has_include( Q(j.h) )\n1\n#endif\n"),
        ("inc/k.h", ""),
    ], {"search": ["inc"]}, {}, "1 | 0 | ok"),
    ([
        ("a.c", "#define K \"a.c\"\n#if __has_include(K)\n1\n#endif\n"),
    ], {}, {"budget": 2}, "1 | 0 | ok"),
    ([
        ("a.c", "#define K \"a.c\"\n#if __has_include(K)\n1\n#endif\n"),
    ], {}, {"budget": 1}, "| 0 | 35 0:2:19"),
    # `__has_include_next`
    ([
        ("a.c", "#include <h.h>\n"),
        ("one/h.h", "#if __has_include_next(<h.h>)\n1\n#include_next <h.h>\n#endif\n"),
        ("two/h.h", "#if __has_include_next(\"h.h\")\n2\n#else\n3\n#endif\n"),
    ], {"search": ["one", "two"]}, {}, "1 3 | 0 1 2 | ok"),
    ([
        ("a.c", "#include <h.h>\n"),
        ("one/h.h", "#if __has_include(\"k.h\") && !__has_include_next(\"k.h\")\n1\n#endif\n"),
        ("one/k.h", ""),
    ], {"search": ["one"]}, {}, "1 | 0 1 | ok"),
    ([
        ("a.c", "#include <h.h>\n"),
        ("one/h.h", "#define K \"k.h\"\n#if !__has_include_next(K) && __has_include(K)\n1\n#endif\n"),
        ("one/k.h", ""),
    ], {"search": ["one"]}, {}, "1 | 0 1 | ok"),
    ([
        ("a.c", "#if __has_include_next(\"h.h\")\n1\n#endif\n"),
        ("h.h", ""),
    ], {}, {}, "1 | 0 | ok"),
    ([
        ("a.c", "#if __has_include_next(\"h.h\")\n1\n#endif\n"),
        ("h.h", ""),
    ], {"define": ["__has_include_next(x) 0"]}, {}, "1 | 0 | ok"),
    # macros that are pushed and popped
    ([
        ("a.c", "#define X 1\n#include \"h.h\"\nX\n#include \"k.h\"\nX\n"),
        ("h.h", "#pragma push_macro(\"X\")\n#define X 2\n"),
        ("k.h", "#pragma pop_macro(\"X\")\n"),
    ], {}, {}, "pragma@1:1:1[ push_macro ( \"X\" ) ] 2 pragma@2:1:1[ pop_macro ( \"X\" ) ] 1 | 0 1 2 | ok"),
    ([
        ("a.c", "#pragma push_macro(\"H\")\n#include \"h.h\"\n#include \"h.h\"\n#pragma pop_macro(\"H\")\n#include \"h.h\"\n"),
        ("h.h", "#ifndef H\n#define H\nx\n#endif\n"),
    ], {}, {}, "pragma@0:1:1[ push_macro ( \"H\" ) ] x pragma@0:4:1[ pop_macro ( \"H\" ) ] x | 0 1 | ok"),
    ([
        ("a.c", "#pragma push_macro(\"X\")\n#undef X\nX\n#pragma pop_macro(\"X\")\nX\n"),
    ], {"define": ["X 5"]}, {}, "pragma@0:1:1[ push_macro ( \"X\" ) ] X pragma@0:4:1[ pop_macro ( \"X\" ) ] 5 | 0 | ok"),
    ([
        ("a.c", "#define X 1\n#pragma push_macro(\"X\")\n#pragma pop_macro(\"X\")\nX\n"),
    ], {}, {"budget": 2}, "pragma@0:2:1[ push_macro ( \"X\" ) ] pragma@0:3:1[ pop_macro ( \"X\" ) ] 1 | 0 | ok"),
    # macros in the operands of pragmas
    ([
        ("a.c", "#pragma omp N\n"),
    ], {"define": ["N 4", "_OPENMP 201511"]}, {}, "pragma@0:1:1[ omp 4 ] | 0 | ok"),
    ([
        ("a.c", "#define N 4\n#pragma message N N\n"),
    ], {}, {"budget": 2}, "| 0 | 35 0:2:19"),
    ([
        ("a.c", "#define N 4\n#pragma message N\n"),
    ], {}, {"profile": "later"}, "pragma@0:2:1[ message N ] | 0 | ok"),
    ([
        ("a.c", "#define N 4\n#pragma message N\n"),
    ], {}, {"profile": "c11"}, "pragma@0:2:1[ message N ] | 0 | ok"),
    # directives among the arguments of a macro
    ([
        ("a.c", "#define f(x) [x]\na f(1\n#include \"h.h\"\n)\n"),
        ("h.h", "2\n"),
    ], {}, {}, "a | 0 | 17 0:2:3 f"),
    ([
        ("a.c", "#define f(x) [x]\nf(1\n#include_next <h.h>\n)\n"),
        ("h.h", "2\n"),
    ], {}, {}, "| 0 | 17 0:2:1 f"),
    ([
        ("a.c", "#include \"h.h\"\n)\n"),
        ("h.h", "#define f(x) [x]\nf(1\n#define Q\n"),
    ], {}, {}, "| 0 1 | 17 1:2:1 f"),
    ([
        ("a.c", "#define f(x) [x]\n#include \"h.h\"\n2\n"),
        ("h.h", "f(1\n#define Q\n) f\n"),
    ], {}, {}, "[ 1 ] f 2 | 0 1 | ok"),
    ([
        ("a.c", "#include \"h.h\"\n#include \"h.h\"\n"),
        ("h.h", "#define f(x) [x]\nf(1\n#pragma once\n2)\n"),
    ], {}, {}, "pragma@1:3:1[ once ] [ 1 2 ] | 0 1 | ok"),
    ([
        ("a.c", "#define f(x) [x]\nf(1\n#define Q\n2\n#undef Q\n)\n"),
    ], {}, {"budget": 2}, "[ 1 2 ] | 0 | ok"),
    ([
        ("a.c", "#define f(x) [x]\nf(1\n#define Q\n2\n#undef Q\n)\n"),
    ], {}, {"budget": 1}, "| 0 | 35 0:2:1"),
    ([
        ("a.c", "#define f(x) [x]\n#define X 1\nf(1\n#if X\n2\n#endif\n)\n"),
    ], {}, {"budget": 3}, "[ 1 2 ] | 0 | ok"),
    ([
        ("a.c", "#define f(x) [x]\n#define X 1\nf(1\n#if X\n2\n#endif\n)\n"),
    ], {}, {"budget": 2}, "| 0 | 35 0:4:5"),
    ([
        ("a.c", "#define f(x) [x]\nf(1\n#define Q\n"),
    ], {}, {"budget": 2}, "| 0 | 17 0:2:1 f"),
    ([
        ("a.c", "#define f(x) [x]\nf(1\n#define Q\n"),
    ], {}, {"budget": 1}, "| 0 | 35 0:2:1"),
    ([
        ("a.c", "#include \"h.h\"\n#include \"h.h\"\nf(2)\n"),
        ("h.h", "#ifndef H\n#define H\n#define f(x) [x]\nf(1\n#ifdef Q\n#else\n3\n#endif\n)\n#endif\n"),
    ], {}, {}, "[ 1 3 ] [ 2 ] | 0 1 | ok"),
    # `__VA_OPT__`
    ([
        ("a.c", "#define f(x, ...) __VA_OPT__(x)\nf(1,2)\n"),
    ], {}, {"profile": "later"}, "__VA_OPT__ ( 1 ) | 0 | ok"),
    ([
        ("a.c", "#define X 1\n#define f(...) __VA_OPT__(a)\nf(X) f()\n"),
    ], {}, {"budget": 3}, "a | 0 | 35 0:3:6"),
    ([
        ("a.c", "#define X 1\n#define f(...) __VA_OPT__(a)\nf() f(X)\n"),
    ], {}, {"budget": 3}, "| 0 | 35 0:3:7"),
    # `__STDC_VERSION__`
    ([
        ("a.c", "__STDC_VERSION__\n#if __STDC_VERSION__ < 201112L\n1\n#endif\n"),
    ], {"define": ["__STDC_VERSION__ 199901L"]}, {}, "199901L 1 | 0 | ok"),
    ([
        ("a.c", "x\n"),
    ], {"define": ["__STDC_VERSION__ 199901L"]}, {"profile": "later"}, "| | 10 65535:1:1 __STDC_VERSION__"),
    # `__COUNTER__`
    ([
        ("a.c", "__COUNTER__\n"),
    ], {"define": ["__COUNTER__ 7"]}, {}, "7 | 0 | ok"),
    ([
        ("a.c", "#include \"h.h\"\n#include \"h.h\"\n"),
        ("h.h", "__COUNTER__\n"),
    ], {}, {}, "0 1 | 0 1 | ok"),
    ([
        ("a.c", "#include \"h.h\"\n#include \"h.h\"\n__COUNTER__\n"),
        ("h.h", "#ifndef H\n#define H\n__COUNTER__\n#endif\n"),
    ], {}, {}, "0 1 | 0 1 | ok"),
    ([
        ("a.c", "__COUNTER__ __COUNTER__\n"),
    ], {}, {"budget": 2}, "0 | 0 | 35 0:1:13"),
    ([
        ("a.c", "#define sw(a, b) b a\nsw(x x __LINE__, __LINE__ y __LINE__)\n"),
    ], {}, {"budget": 4}, "| 0 | 35 0:2:8"),
    # `__has_attribute` from definitions
    ([
        ("a.c", "#if defined __has_attribute && __has_attribute(__unused__) && !__has_attribute(nothing)\n1\n#endif\n"),
    ], {"define": ["__has_attribute(x) __has_attribute_1(x)", "__has_attribute_1(x) __has_attribute_ ## x", "__has_attribute___unused__ 1"]}, {}, "1 | 0 | ok"),
]

# Texts of a.c, and the lines of a unit of it: tokens after a comma, and one after a comma that was deleted; directives among arguments.
PLACED = [
    ("#define e(f,a...) f,##a\n e(1) +\ne(1,  2, 3)+\n", [
        b"tok 0:2:4 0:2:2 n+ 1",
        b"tok 0:2:7 0:2:7 p+ +",
        b"tok 0:3:3 0:3:1 n+ 1",
        b"tok 0:1:20 0:3:1 p- ,",
        b"tok 0:3:7 0:3:1 n+ 2",
        b"tok 0:3:8 0:3:1 p- ,",
        b"tok 0:3:10 0:3:1 n+ 3",
        b"tok 0:3:12 0:3:12 p- +",
        b"dep 0 a.c",
        b"ok",
    ]),
    ("#define f(x) [x]\na f(1\n#define Q 7\nQ) b\n", [
        b"tok 0:2:1 0:2:1 i+ a",
        b"tok 0:1:14 0:2:3 p+ [",
        b"tok 0:2:5 0:2:3 n- 1",
        b"tok 0:3:11 0:2:3 n+ 7",
        b"tok 0:1:16 0:2:3 p- ]",
        b"tok 0:4:4 0:4:4 i+ b",
        b"dep 0 a.c",
        b"ok",
    ]),
    ("#define f(x) [x]\n#define O __COUNTER__ f\nO(__COUNTER__\n#define Q\n2) __COUNTER__\n", [
        b"tok 0:2:11 0:3:1 n+ 0",
        b"tok 0:1:14 0:3:1 p+ [",
        b"tok 0:3:3 0:3:1 n- 1",
        b"tok 0:5:1 0:3:1 n+ 2",
        b"tok 0:1:16 0:3:1 p- ]",
        b"tok 0:5:4 0:5:4 n+ 2",
        b"dep 0 a.c",
        b"ok",
    ]),
    ("#define f(x) [x]\na f(1\n#pragma p X\n2) b\n", [
        b"tok 0:2:1 0:2:1 i+ a",
        b"prag 0:3:1",
        b"ptok 0:3:9 0:3:9 i+ p",
        b"ptok 0:3:11 0:3:11 i+ X",
        b"tok 0:1:14 0:2:3 p+ [",
        b"tok 0:2:5 0:2:3 n- 1",
        b"tok 0:4:1 0:2:3 n+ 2",
        b"tok 0:1:16 0:2:3 p- ]",
        b"tok 0:4:4 0:4:4 i+ b",
        b"dep 0 a.c",
        b"ok",
    ]),
    ("#define f(x) [x]\n#define E\n#define g(x) f x\n E f(1\n#define Q\n) g() (2\n#undef Q\n)\n", [
        b"tok 0:1:14 0:4:4 p+ [",
        b"tok 0:4:6 0:4:4 n- 1",
        b"tok 0:1:16 0:4:4 p- ]",
        b"tok 0:1:14 0:6:3 p+ [",
        b"tok 0:6:8 0:6:3 n- 2",
        b"tok 0:1:16 0:6:3 p- ]",
        b"dep 0 a.c",
        b"ok",
    ]),
]


def gives(files, unit, shared):
    """Returns the result of a unit of the first file; the profile is gnu by default."""
    return results(files, [{"file": files[0][0], **unit}], **{"profile": "gnu", **shared})


class Gnu(unittest.TestCase):
    def test_texts(self):
        for text, wanted in TEXTS:
            self.assertEqual(gives([("a.c", text)], {}, {}), [wanted], text)

    def test_other_profiles(self):
        for profile, text, wanted in OTHERS:
            self.assertEqual(gives([("a.c", text)], {}, {"profile": profile}), [wanted], text)

    def test_lists(self):
        for files, unit, shared, wanted in LISTS:
            self.assertEqual(gives(files, unit, shared), [wanted], files)

    def test_each_unit_counts_for_itself(self):
        text = "__COUNTER__\n#undef __COUNTER__\n__COUNTER__\n"
        found = results([("a.c", text), ("b.c", "__COUNTER__ __COUNTER__\n")], [{"file": name} for name in ("a.c", "b.c", "a.c", "b.c")], profile="gnu")
        self.assertEqual(found, ["0 __COUNTER__ | 0 | ok", "0 1 | 1 | ok"] * 2)

    def test_pushed_macros_of_each_unit(self):
        text = "#pragma pop_macro(\"X\")\nX\n#define X 2\n#pragma push_macro(\"X\")\n"
        wanted = "pragma@0:1:1[ pop_macro ( \"X\" ) ] X pragma@0:4:1[ push_macro ( \"X\" ) ] | 0 | ok"
        self.assertEqual(results([("a.c", text)], [{"file": "a.c"}] * 2, profile="gnu"), [wanted, wanted])

    def test_an_open_invocation_of_each_unit(self):
        text = "#define f(x) [x]\nf(1\n#define Q\n"
        self.assertEqual(results([("a.c", text)], [{"file": "a.c"}] * 2, profile="gnu"), ["| 0 | 17 0:2:1 f"] * 2)

    def test_places_and_marks(self):
        for text, lines in PLACED:
            self.assertEqual(dumped([{"name": "a.c", "text": text}], [{"file": "a.c"}], profile="gnu"), [lines], text)


if __name__ == "__main__":
    main()
