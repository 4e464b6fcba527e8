"""The tests of tools/readable, class by class: what each kind of rewriting makes of a declaration or function, and what it leaves alone.
checks/tools runs them."""
import os
import sys
import tempfile
import unittest

from program import ROOT, built

sys.path.insert(0, os.path.join(ROOT, "tools", "lib"))

from readable import Program  # noqa: E402  (the folder has to be named first)
from readable.chunks import OLD_STYLE, Source  # noqa: E402
from readable.foreign import forms  # noqa: E402
from readable.names import names_of  # noqa: E402
from readable.rewriting import rewritten  # noqa: E402
from readable.rewriting.classes import APPROXIMATION, DETAIL, EXACT  # noqa: E402

AROUND = ("struct s { int m; int n[4]; struct s *next; }; typedef unsigned long size_t; typedef struct s S;"
          " typedef struct { int a; union { struct i { int d; } inner; const struct { const unsigned long b : 3; }; };"
          " char (*f)(int), **c; } T;"
          " int e(int); struct { int e; }; int f(void); static inline struct s *s(int); int g; S *h; int t[4]; ")
# class, text, what becomes of it
CASES = [
    ("alignment", "int x = __alignof__(long) + _Alignof(S);", "int x = sizeof ( long ) + sizeof ( S ) ;"),
    ("word", "_Noreturn void x(void);", "void x ( void ) ;"),
    ("word", "extern __thread int x;", "extern int x ;"),
    ("word", "_Atomic(int) x;", "int x ;"),
    ("word", 'void x(void) { _Static_assert(sizeof(int) == 4, "size"); _Alignas(8) int y; e(y); }',
     "void x ( void ) { int y ; e ( y ) ; }"),
    ("128 bits", "__int128_t x;", "__int128 x ;"),
    ("128 bits", "__uint128_t x;", "unsigned __int128 x ;"),
    ("constant", "double x = 0x1.8p3 + 0x1p2f;", "double x = 0. + 0.f ;"),
    ("constant", "int x = 0b101u;", "int x = 0x5u ;"),
    ("constant", "int *x = U\"a\", y = sizeof(u8\"b\");", "int * x = L\"a\" , y = sizeof ( \"b\" ) ;"),
    ("case range", "int x(int y) { switch (y) { case 0 ... 3: return 1; case 'a' ? 1 : 2 ... 9: return 2; } return 0; }",
     "int x ( int y ) { switch ( y ) { case 0 : return 1 ; case 'a' ? 1 : 2 : return 2 ; } return 0 ; }"),
    ("designator", "S x = { .m = 1, .n = { [0] = 3, [2] = 4 } };", "S x = { 1 , { 3 , 4 } } ;"),
    ("array bound", "int x[sizeof(({ g; }))];", "int x [ ] ;"),
    ("old-style head", "int x(a, b) char *b; int a; { return a + *b; }", "int x ( int a , char * b ) { return a + * b ; }"),
    ("old-style head", "int x(a, b, c) int a, c; { return a + b + c; }", "int x ( int a , int b , int c ) { return a + b + c ; }"),
    ("typeof of a type", "typeof(struct s *) x;", "struct s * x ;"),
    ("own type", "int x(S *p) { return *(typeof(*p->next) *)&*p->next ? 1 : 0; }", "int x ( S * p ) { return * & * p -> next ? 1 : 0 ; }"),
    ("own type", "int x(void) { return (*(const volatile typeof(_Generic((g), int: (int)0, default: (g))) *)&(g)); }",
     "int x ( void ) { return ( * & ( g ) ) ; }"),
    ("own type", "S *x(S *p) { return (typeof(*(p->next)) *)(p->next); }", "S * x ( S * p ) { return ( p -> next ) ; }"),
    ("own type", "S *x(S *p) { return (typeof(*(p->next)) *)((*&((p->next)))); }",
     "S * x ( S * p ) { return ( ( * & ( ( p -> next ) ) ) ) ; }"),
    ("own type", "int x(char *p) { do { struct { typeof(*((int *)(p + g))) b; } *q = (typeof(q))(((int *)(p + g))); q->b = 1; } while (0); return 0; }",
     "int x ( char * p ) { { struct { int b ; } * q = ( ( ( int * ) ( p + g ) ) ) ; q -> b = 1 ; } return 0 ; }"),
    ("selection", "S *x(S *p) { return _Generic((p), const S *: (const S *)p->next, S *: (S *)p->next); }",
     "S * x ( S * p ) { return ( ( S * ) p -> next ) ; }"),
    ("selection", "int x(S *p) { return _Generic(*(&p->m), long: 1, int: e(2), default: 3); }", "int x ( S * p ) { return ( e ( 2 ) ) ; }"),
    ("repeated declaration", "extern typeof(f) f;", ";"),
    ("assertion", "void x(void) { do { void __compiletime_assert_7(void); if (sizeof(g) == 4) __compiletime_assert_7(); } while (0); e(1); }",
     "void x ( void ) { ; e ( 1 ) ; }"),
    ("declaration", "void x(int n) { for (int i = 0; i < n; i++) e(i); }",
     "void x ( int n ) { { int i = 0 ; for ( ; i < n ; i ++ ) e ( i ) ; } }"),
    ("declaration", "void x(int n) { lab: e(n); S y; int z; e(y.m); goto lab; }",
     "void x ( int n ) { lab : e ( n ) ; { S y ; int z ; e ( y . m ) ; goto lab ; } }"),
    ("plain loop", "void x(int n) { if (n) do { e(1); } while (0); else e(2); }",
     "void x ( int n ) { if ( n ) { e ( 1 ) ; } else e ( 2 ) ; }"),
    ("plain loop", "void x(int n) { do { e(1); } while (0 && e(n)); }", "void x ( int n ) { { e ( 1 ) ; } }"),
    ("comma", "int x(void) { return ({ e(1); e(2); }); }", "int x ( void ) { return ( e ( 1 ) , e ( 2 ) ) ; }"),
    ("comma", "int x(int n) { if (e(n) || ({ do { { e(1); } do { n = f(); } while (0); } while (0); n ? 1 : ({ do { { } e(2); } while (0); 0; }); })) n = 1;"
     " return n; }",
     "int x ( int n ) { if ( e ( n ) || ( e ( 1 ) , n = f ( ) , n ? 1 : ( e ( 2 ) , 0 ) ) ) n = 1 ; return n ; }"),
    ("block", "void x(int n) { ({ if (n) e(1); }); }", "void x ( int n ) { { if ( n ) e ( 1 ) ; } }"),
    ("block", "void x(int n) { (void)({ while (n--) e(1); n; }); }", "void x ( int n ) { { while ( n -- ) e ( 1 ) ; n ; } }"),
    ("branches", "void x(int n) { n ? ({ while (n) e(1); }) : ({ if (n) e(2); }); }",
     "void x ( int n ) { { if ( n ) { while ( n ) e ( 1 ) ; } else { if ( n ) e ( 2 ) ; } } }"),
    ("branches", "int x(S *p) { if (p) p->m = ((e(1)) ? 0 : ({ int i = f(); *p->n = i; while (i) i--; i; })); else e(2);"
     " return 1; }",
     "int x ( S * p ) { if ( p ) { if ( ( e ( 1 ) ) ) p -> m = 0 ; else { int i = f ( ) ; * p -> n = i ; while ( i ) i -- ; p -> m = i ; } }"
     " else e ( 2 ) ; return 1 ; }"),
    ("branches", "int x(int n) { return n ? g : ({ while (n) n--; n; }); }",
     "int x ( int n ) { { if ( n ) return g ; else { while ( n ) n -- ; return n ; } } }"),
    ("variables in front", "int x(int n) { while (n && ({ S *const a = s(n); int b[3], c; c = a->m; e(c) + b[0]; })) n--; return n; }",
     "int x ( int n ) { { S * a ; int b [ 3 ] , c ; while ( n && ( a = s ( n ) , c = a -> m , e ( c ) + b [ 0 ] ) ) n -- ; } return n ; }"),
    ("variables in front", "int x(int n) { if (n) do { e(n); } while (g && ({ int a = f(); e(a); })); return 0; }",
     "int x ( int n ) { if ( n ) { int a ; do { e ( n ) ; } while ( g && ( a = f ( ) , e ( a ) ) ) ; } return 0 ; }"),
    ("variables in front", "int x(int n) { int a = 2, b = e(a) + ({ register int a = f(); { int c = n; e(c); } a = e(a); a; }); return b + a; }",
     "int x ( int n ) { int a_1 ; int c ; int a = 2 , b = e ( a ) + ( a_1 = f ( ) , c = n , e ( c ) , a_1 = e ( a_1 ) , a_1 ) ; return b + a ; }"),
    ("variables in front", "int x(int n) { if (e(1) || ({ int a = f(); e(a); e(a); }) || ({ int a = n; n = f(); e(a); })) return 1; return 0; }",
     "int x ( int n ) { { int a_1 ; { int a ; if ( e ( 1 ) || ( a = f ( ) , e ( a ) , e ( a ) ) || ( a_1 = n , n = f ( ) , e ( a_1 ) ) ) return 1 ; } }"
     " return 0 ; }"),
    ("nothing", "int x(int n) { return ({ int y = !!(n); do { } while (0); if (y) { int z; } y; }); }",
     "int x ( int n ) { return ( ( ( ! ! ( n ) ) ) ) ; }"),
    ("nothing", "int x(int n) { return ({ int y; typeof(n) z; (void)(&y == &z); 1; }); }", "int x ( int n ) { return ( 1 ) ; }"),
    ("local label", "void x(int n) { { __label__ l; if (n) goto l; e(1); l: ; } { __label__ l; goto l; l: e(2); } }",
     "void x ( int n ) { { if ( n ) goto l_1 ; e ( 1 ) ; l_1 : ; } { goto l ; l : e ( 2 ) ; } }"),
    ("address of a label", "unsigned long x(void) { return ({ __label__ here; here: (unsigned long)&&here; }); }",
     "unsigned long x ( void ) { return ( 0 ) ; }"),
    ("foreign size", "int x = sizeof(({ g; }));", "int x = sizeof ( 0 ) ;"),
    ("typeof by declaration", "int x(S *p) { typeof(*p) y; typeof(p) z; return y.m + z->m; }",
     "int x ( S * p ) { S y ; S * z ; return y . m + z -> m ; }"),
    ("typeof by declaration", "int x(S p) { typeof(*&p) y; return y.m; }", "int x ( S p ) { S y ; return y . m ; }"),
    ("typeof by declaration", "int x(S *p, int k) { typeof(p->next->n[k]) y; typeof((&p[k])->next) z; return y + z->m; }",
     "int x ( S * p , int k ) { int y ; struct s * z ; return y + z -> m ; }"),
    ("typeof by declaration", "int x(void *p) { typeof(&s(1)->next) y; typeof(*((S *)(p))) z; return z.m + (*y)->m; }",
     "int x ( void * p ) { struct s * * y ; S z ; return z . m + ( * y ) -> m ; }"),
    ("typeof by declaration", "int x(S *p) { return (typeof((&(p->n[1])) + 0))0 ? 1 : 0; }",
     "int x ( S * p ) { return ( int * ) 0 ? 1 : 0 ; }"),
    ("typeof by declaration", "int x(T *p) { typeof(p->inner) y; typeof(p->b) z; typeof(*p->c) a; return y.d + z + a; }",
     "int x ( T * p ) { struct i y ; unsigned long z ; char * a ; return y . d + z + a ; }"),
    ("typeof by declaration", "int x(S *p) { typeof(*(p + 1)) y; typeof(p->n + p->m) z; typeof(*((S *)(p->n + 2 * p->m))) a; return y.m + *z + a.m; }",
     "int x ( S * p ) { S y ; int * z ; S a ; return y . m + * z + a . m ; }"),
    ("typeof by declaration", "int x(int n) { unsigned long a = e(n), *b = 0, c[3], d = n; return (typeof(d))n + (typeof(*c))n + (typeof(*b))a; }",
     "int x ( int n ) { unsigned long a = e ( n ) , * b = 0 , c [ 3 ] , d = n ;"
     " return ( unsigned long ) n + ( unsigned long ) n + ( unsigned long ) a ; }"),
    ("typeof by declaration", "int x(void) { typeof(*h) y; typeof(t[0]) *z; return y.m; }", None),
    ("own variable", "int x(S *p) { return ({ void *q = (void *)(p); ((S *)(q - 8)); })->m; }",
     "int x ( S * p ) { return ( ( ( S * ) ( ( ( ( void * ) ( p ) ) ) - 8 ) ) ) -> m ; }"),
    ("in front", "int x(int n) { int y = ({ int i = n; while (i) i--; i; }) + 1; return y; }",
     "int x ( int n ) { int y ; { int i = n ; while ( i ) i -- ; y = ( i ) + 1 ; } return y ; }"),
    ("in front", "int x(int n) { if (({ int i = n; while (i) i--; i; }) > 2) return 1; return 0; }",
     "int x ( int n ) { { int i = n ; while ( i ) i -- ; if ( ( i ) > 2 ) return 1 ; } return 0 ; }"),
    ("in front", "int x(int n) { if ((e(n), ({ int i = n; while (i) i--; i; }))) return 1; return 0; }",
     "int x ( int n ) { { e ( n ) ; { int i = n ; while ( i ) i -- ; if ( ( i ) ) return 1 ; } } return 0 ; }"),
    ("in front", "int x(int n) { return ({ e(n); ({ int i; i = n; while (i) i--; i; }); }); }",
     "int x ( int n ) { { e ( n ) ; { int i ; i = n ; while ( i ) i -- ; return ( i ) ; } } }"),
    ("in front", "int x(S *p) { if (p) ((*p).next)->m = ({ int i = 3; while (i) i--; i; }); return 0; }",
     "int x ( S * p ) { if ( p ) { int i = 3 ; while ( i ) i -- ; ( ( * p ) . next ) -> m = ( i ) ; } return 0 ; }"),
    ("in front", "int x(int n) { int i = 1; n = i + ({ int i = n; while (i) i--; i; }); return n; }",
     "int x ( int n ) { int i = 1 ; { int i_1 = n ; while ( i_1 ) i_1 -- ; n = i + ( i_1 ) ; } return n ; }"),
    ("in front", "int x(S *m) { int n = 0; if (!m->m) n = ({ __label__ out; int n = 0; struct s *m = s(1); for (;;) { if (m->n[n]) goto out;"
     " n++; } out: n; }); return n; }",
     "int x ( S * m ) { int n = 0 ; if ( ! m -> m ) { { int n_1 = 0 ; struct s * m = s ( 1 ) ; for ( ; ; ) { if ( m -> n [ n_1 ] ) goto out ;"
     " n_1 ++ ; } out : n = ( n_1 ) ; } } return n ; }"),
    ("read again", "int x(int n) { return ({ int a = n; e(a) ? a : 3; }); }",
     "int x ( int n ) { return ( e ( ( ( n ) ) ) ? ( ( n ) ) : 3 ) ; }"),
    ("read again", "int x(int n) { return ({ int a = (n); a < 3 ? a : 3; }); }",
     "int x ( int n ) { return ( ( ( ( n ) ) ) < 3 ? ( ( ( n ) ) ) : 3 ) ; }"),
    ("automatic type", "int x(int n) { __auto_type a = n + 1; return a; }", "int x ( int n ) { unsigned long a = n + 1 ; return a ; }"),
    ("automatic type", "int x(int n) { __auto_type a = ((short)e(n)); return a; }",
     "int x ( int n ) { short a = ( ( short ) e ( n ) ) ; return a ; }"),
    ("automatic type", "int x(S *p) { typeof(__builtin_choose_expr(sizeof(*(p)) <= 4, (unsigned int)0, 0ULL)) a = 1; return a; }",
     "int x ( S * p ) { unsigned long a = 1 ; return a ; }"),
    ("automatic type", "int x(S *p) { __auto_type a = (p->n[1] - (size_t)p * -2 < sizeof(S) ? 'a' : ~p->m); return a; }", None),
    ("automatic type", "int x(S *p) { return (typeof((p->m) / 2 - 1))p->m; }", "int x ( S * p ) { return ( unsigned long ) p -> m ; }"),
    ("automatic type", "int x(int n) { typeof(_Generic((n & 3), char: (char)0, default: (n & 3))) a = 1; return a; }",
     "int x ( int n ) { unsigned long a = 1 ; return a ; }"),
    ("choice", "int x(int n) { return __builtin_choose_expr(1, n, __builtin_choose_expr(0, e(n), 3)); }",
     "int x ( int n ) { return ( 1 ? n : ( 0 ? e ( n ) : 3 ) ) ; }"),
    ("middle", "int x(S *p) { return p->m ?: 3; }", "int x ( S * p ) { return p -> m ? p -> m : 3 ; }"),
    ("middle", "int x(int n) { int a = g || n ?: (n ?: t[1]) ?: 3; return a; }",
     "int x ( int n ) { int a = g || n ? g || n : ( n ? n : t [ 1 ] ) ? ( n ? n : t [ 1 ] ) : 3 ; return a ; }"),
    ("middle", "int x(int n) { if (n) g ?: e(1); return n ? g ?: 1 : e(n, t[n] ?: g) ? 2 : 3; }",
     "int x ( int n ) { if ( n ) g ? g : e ( 1 ) ; return n ? g ? g : 1 : e ( n , t [ n ] ? t [ n ] : g ) ? 2 : 3 ; }"),
    ("middle", "int x(int n) { return ({ int a = g; a; }) ?: n; }",
     "int x ( int n ) { return ( ( ( g ) ) ) ? ( ( ( g ) ) ) : n ; }"),
    ("kept result", "S *x(int n) { if (n) h = s(n) ?: h; return h; }",
     "S * x ( int n ) { if ( n ) { struct s * result_1 = s ( n ) ; h = ( result_1 ? result_1 : h ) ; } return h ; }"),
    ("kept result", "int x(int n) { int y = e(n) ?: f(); return e(s(y) ?: h); }",
     "int x ( int n ) { int y ; { int result_2 = e ( n ) ; y = ( result_2 ? result_2 : f ( ) ) ; }"
     " { struct s * result_1 = s ( y ) ; return e ( ( result_1 ? result_1 : h ) ) ; } }"),
    ("compound literal", "int x(S *p) { *p = (S){ .m = e(1), .n = { 2, g, }, }; return ((S){ }).m; }",
     "int x ( S * p ) { * p = ( * ( S * ) ( e ( 1 ) , 2 , g , 0 ) ) ; return ( ( * ( S * ) ( 0 ) ) ) . m ; }"),
    ("compound literal", "int x(void) { return e(((int const []){ 1, ((S){ 2, { { }, t[0] } }).m })[0]); }",
     "int x ( void ) { return e ( ( ( ( int const * ) ( 1 , ( ( * ( S * ) ( 2 , t [ 0 ] , 0 ) ) ) . m , 0 ) ) ) [ 0 ] ) ; }"),
    ("compound literal", "int x(int n) { S y = (S){ ({ e(n); n; }), { n } }; return sizeof (S){ 0 } + y.m; }",
     "int x ( int n ) { S y = ( * ( S * ) ( ( e ( n ) , n ) , n , 0 ) ) ; return sizeof ( * ( S * ) ( 0 , 0 ) ) + y . m ; }"),
    ("compatible types", "int x(int n) { return __builtin_types_compatible_p(typeof(n), int); }",
     "int x ( int n ) { return __builtin_types_compatible_p ( ) ; }"),
    ("per-CPU read", "int x(void) { return ({ typeof(h->m) pscr_ret__; switch (4) { case 4: e(1); } pscr_ret__; }); }",
     "int x ( void ) { return ( h -> m ) ; }"),
    ("per-CPU read", "S *x(void) { return ({ unsigned long n; asm (\"\" : \"=r\"(n) : \"0\"(h)); (typeof(*(h)) *)n; }); }",
     "S * x ( void ) { return ( ( h ) ) ; }"),
    ("per-CPU read", "S *x(int n) { return ({ unsigned long p; (typeof((typeof(*(h)) *)(h)))(p + (t[n])); })->next; }",
     "S * x ( int n ) { return ( ( h ) ) -> next ; }"),
    ("per-CPU read", "S *x(int n) { return ({ unsigned long p; (typeof(h))(p + t[e(n)]); }); }",
     "S * x ( int n ) { return ( t [ e ( n ) ] , h ) ; }"),
]
# what a class may not touch: the text, and the class that doesn't take it
KEPT = [
    ("void x(int n) { do { if (n) break; e(1); } while (0); }", "plain loop"),
    ("void x(int n) { while (n--) do { if (n) continue; } while (0); }", "plain loop"),
    ("void x(int n) { do { e(1); } while (n); }", "plain loop"),
    ("void x(int n) { do { e(1); } while (0 && e(n) || n); }", "plain loop"),
    ("int x(int n) { return (*f)(n) + ({ int i = n; while (i) i--; i; }); }", "in front"),
    ("int x(int n) { return e(n) + ({ int i = n; while (i) i--; i; }); }", "in front"),
    ("int x(int n) { return e(n, ({ int i = n; while (i) i--; i; })); }", "in front"),
    ("int x(int n) { return e(n ? 1 : ({ while (n) n--; n; })); }", "branches"),
    ("int x(int n) { t[e(1)] = n ? 1 : ({ while (n) n--; n; }); return 1; }", "branches"),
    ("int x(int n) { return n && ({ int i = n; while (i) i--; i; }); }", "in front"),
    ("int x(int n) { while (({ int i = n; while (i) i--; i; })) e(1); return 0; }", "in front"),
    ("int x(int n) { return ({ int a = e(n); n ? a : 3; }); }", "own variable"),
    ("int x(int n) { return ({ int a = e(n); a < 3 ? a : 3; }); }", "read again"),
    ("int x(S *p) { return ({ int a = p->m; e(p->m) + a; }); }", "own variable"),
    ("int x(S *p) { return ({ int a = p->m; p = 0, a; }); }", "own variable"),
    ("int x(S *p) { __auto_type a = p; return a->m; }", "automatic type"),
    ("int x(S *p) { __auto_type a = p->next + 1; return a->m; }", "automatic type"),
    ("int x(S *p) { __auto_type a = &p->m; return *a; }", "automatic type"),
    ("int x(S *p) { __auto_type a = (short)e(1) ? p : h; return a->m; }", "automatic type"),
    ("int x(int n) { do { e(n); } while (0); return n; } ", "assertion"),
    ("S x = { 1, { t[0], h->m } };", "designator"),
    ("int x(int n) { int y = (typeof(y))n + 1; return y; }", "own type"),
    ("int x(int n) { typeof(t) y; return n; }", "typeof by declaration"),
    ("int x(S *p) { typeof(p->m + p->n) y; typeof(p + 1 - p) z; typeof(p + 1 ? p : h) a; return n; }", "typeof by declaration"),
    ("int x(int n) { return (typeof((int *)0))n ? 1 : 0; }", "automatic type"),
    ("int x = sizeof(int[3]);", "foreign size"),
    ("int x(void) { return ((int[2][2]){ 1 })[0][0]; }", "compound literal"),
    ("S x = (S){ 1 };", "compound literal"),
    ("int (*x(int n))(int m) { return 0; }", "compound literal"),
    ("int x(int n) { return _Generic(n + 1, int: n, long: g); }", "selection"),
    ("int x(int n) { return ({ unsigned long p = f(); (typeof(n))(p + n); }); }", "per-CPU read"),
    ("int x(int n) { return e(n) ?: 3; }", "middle"),
    ("int x(int n) { return g ? e(n) ?: 3 : 1; }", "kept result"),
    ("int x(int n) { return e(1) + (e(n) ?: 3); }", "kept result"),
    ("int x(int n) { return unknown(n) ?: 3; }", "kept result"),
    ("int x(int n) { return n++ ?: 3; }", "middle"),
    ("int x(int n) { return n ? g : 3; }", "middle"),
]


def changed(text):
    """The spelling of the last chunk of a text after rewriting, the classes, and the forms that are left."""
    source = Source(AROUND + text)
    names, chunk = names_of(source), source.chunks[-1]
    tokens, classes = rewritten(source.own_tokens(chunk), names, chunk.is_function(), chunk.kind == OLD_STYLE)
    return " ".join(token.text for token in tokens), classes, forms(tokens, names, chunk.is_function())


class Classes(unittest.TestCase):
    def test_each(self):
        for name, text, wanted in CASES:
            with self.subTest(text):
                found, classes, left = changed(text)
                self.assertIn(name, classes)
                if wanted is not None:
                    self.assertEqual(found, wanted)
                    self.assertEqual(left, set())

    def test_all_are_tried(self):
        tried = {name for name, _, _ in CASES} | {"asm"}
        self.assertEqual(tried, {**EXACT, **DETAIL, **APPROXIMATION}.keys())

    def test_what_is_left_alone(self):
        for text, name in KEPT:
            with self.subTest(text):
                self.assertNotIn(name, changed(text)[1])

    def test_all_are_read(self):
        """The program reads what becomes of each case."""
        wanted = [found for _, _, found in CASES if found is not None]
        with tempfile.TemporaryDirectory() as folder:
            path = os.path.join(folder, "all.i")
            with open(path, "w", encoding="utf-8") as file:
                file.write(AROUND + "".join(text.replace(" x ", f" x{k} ", 1) + "\n" for k, text in enumerate(wanted)))
            refusal = Program(built()).refusal(path)
        self.assertIsNone(refusal, refusal and f"{refusal.fault} in {wanted[refusal.line - 1]}")

    def test_documented(self):
        with open(os.path.join(ROOT, "docs", "READABLE.md"), encoding="utf-8") as page:
            text = page.read()
        for name in {**EXACT, **DETAIL, **APPROXIMATION}:
            self.assertRegex(text, rf"(?m)^\| {name} \|")


class Forms(unittest.TestCase):
    def test_named(self):
        for text, name in [
                ("int x(void) { return e(((int[2][2]){ 1 })[0][0]); }", "compound literal"),
                ("int x(int y) { return e(1) + (e(y) ?: 3); }", "?: without a middle"),
                ("void x(void) { void *p = &&l; l: goto *p; }", "computed goto"), ("void x(void) { l: h = &&l; }", "address of a label"),
                ("void x(void) { int y(int a) { return a; } y(1); }", "nested function"), ("_Complex double x;", "complex"),
                ("int x = (struct { int a; } *)0 == 0;", "struct body in a type name"),
                ("int x(void) { return ({ while (g) g--; g; }) + 1 && ({ while (g) g--; g; }); }", "statement expression")]:
            with self.subTest(text):
                self.assertIn(name, changed(text)[2])

    def test_nothing_else(self):
        for text in ["int x(int a, ...) { switch (a) { case 1: return t[a ? 1 : 2]; default: ; } return (S *)h ? (a) && a : 0; }",
                     "int x(int a) { S y = { 1, { 2 } }; { int b; b = a; } if (a) { int c; } else { int d; } return y.m; }",
                     "S x[] = { { 1 }, { 2, { 3 } } };", "enum x { A = sizeof(int), B };"]:
            with self.subTest(text):
                self.assertEqual(changed(text)[2], set())


if __name__ == "__main__":
    sys.argv[1:] = sys.argv[1:] or ["-q"]
    unittest.main()
