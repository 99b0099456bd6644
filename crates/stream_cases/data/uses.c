#ifdef A
int x;
#endif
int y;
int f(int n) {
#ifdef B
int y;
y = n;
#endif
#ifdef A
x = y;
#endif
return f(y);
}
