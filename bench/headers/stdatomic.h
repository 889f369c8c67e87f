/*
 * The atomic operations that readsb names, for clang: tools/cc has gcc's own header, which clang cannot use.
 */
#ifndef BENCH_STDATOMIC_H
#define BENCH_STDATOMIC_H

typedef _Atomic(int) atomic_int;
typedef _Atomic(unsigned) atomic_uint;

#define atomic_load(at) __c11_atomic_load(at, __ATOMIC_SEQ_CST)
#define atomic_store(at, value) __c11_atomic_store(at, value, __ATOMIC_SEQ_CST)
#define atomic_exchange(at, value) __c11_atomic_exchange(at, value, __ATOMIC_SEQ_CST)
#define atomic_fetch_add(at, value) __c11_atomic_fetch_add(at, value, __ATOMIC_SEQ_CST)
/* readsb hands an atomic number over as the expected one. */
#define atomic_compare_exchange_weak(at, expected, value)                                                              \
    __c11_atomic_compare_exchange_weak(at, (int *)(expected), value, __ATOMIC_SEQ_CST, __ATOMIC_SEQ_CST)

#endif
