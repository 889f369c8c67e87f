/* The object `dealer` of the library: the assembler for the target being compiled. tools/dist writes it. */
#if !defined(__ELF__) || __BYTE_ORDER__ != __ORDER_LITTLE_ENDIAN__
#error "Addercoil has no assembler for this system"
#elif defined(__x86_64__) && __SIZEOF_POINTER__ == 8
#include "x86_64/dealer.inc"
#elif defined(__aarch64__) && __SIZEOF_POINTER__ == 8
#include "aarch64/dealer.inc"
#elif defined(__arm__) && __ARM_ARCH_PROFILE != 'M' && __ARM_ARCH >= 6 && defined(__ARM_PCS_VFP)
#include "armv6/dealer.inc"
#elif defined(__riscv) && __riscv_xlen == 64 && defined(__riscv_mul) && defined(__riscv_compressed) && defined(__riscv_float_abi_double)
#include "riscv64/dealer.inc"
#elif defined(__arm__) && __ARM_ARCH_PROFILE == 'M' && __ARM_ARCH_ISA_THUMB == 2 && !defined(__ARM_PCS_VFP)
#include "thumbv7m/dealer.inc"
#elif defined(__arm__) && __ARM_ARCH_PROFILE == 'M' && __ARM_ARCH_ISA_THUMB == 1 && !defined(__ARM_PCS_VFP)
#include "thumbv6m/dealer.inc"
#else
#error "Addercoil has no assembler for this processor, or not for this way to pass doubles"
#endif
