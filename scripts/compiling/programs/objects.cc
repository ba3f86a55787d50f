// C++ with virtual functions, pointers to members, templates, constructors of global objects, and lambdas.
#include "lwc.h"

struct Base {
  long k;
  Base(long k) : k(k) {}
  virtual long f(long x) { return x + k; }
  virtual long g(long x) { return x * 2; }
  long h(long x) { return x - k; }
};
struct Derived : Base {
  using Base::Base;
  long f(long x) override { return x * k; }
};
template <class T> T sum(const T *p, int n) {
  T t{};
  for (int i = 0; i < n; i++)
    t += p[i];
  return t;
}
static long made;
struct Counted {
  long number;
  Counted() : number(++made) {}
};
Derived global(7);
Counted first, second;
__attribute__((noinline)) long call(Base *a, long (Base::*m)(long), long x) { return (a->*m)(x); }

int main() {
  Base base(3);
  Base *all[] = {&base, &global};
  long out[12];
  int n = 0;
  for (auto p : all) {
    out[n++] = p->f(10);
    out[n++] = p->g(10);
    out[n++] = call(p, &Base::f, 100);
    out[n++] = call(p, &Base::h, 100);
  }
  out[n] = sum(out, n);
  n++;
  out[n++] = second.number * 10 + first.number;
  auto l = [&](long x) { return x + out[0]; };
  out[0] = l(1000);
  lwc_write(LWC_CONSOLE, out, (long)sizeof *out * n);
  return 0;
}
