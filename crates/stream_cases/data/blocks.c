struct S { int m; };
int g;
int f(int a) {
#ifdef A
int g;
#endif
g = a;
{
#ifdef B
int a;
#endif
a = g;
}
return a;
}
struct T *p;
