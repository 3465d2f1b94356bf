// Atomics of 1 and 2 bytes, which the compiler calls for: the machine has those of 4 and 8 alone,
// so each is a loop over the word in which the bytes lie.
#include <stdbool.h>
#include <stdint.h>

#define OPERATIONS(size, type) \
    static unsigned shift_##size(volatile void *at) { \
        return ((uintptr_t)at & 3) * 8; \
    } \
    static uint32_t *word_##size(volatile void *at) { \
        return (uint32_t *)((uintptr_t)at & ~(uintptr_t)3); \
    } \
    static const uint32_t mask_##size = (type)-1; \
    bool atomic_compare_exchange_##size(volatile void *, void *, type, bool, int, \
                                        int) __asm__("__atomic_compare_exchange_" #size); \
    bool atomic_compare_exchange_##size(volatile void *at, void *expected, type value, bool weak, \
                                        int yes, int no) { \
        uint32_t *word = word_##size(at), old = __atomic_load_n(word, __ATOMIC_SEQ_CST), new; \
        unsigned shift = shift_##size(at); \
        do { \
            type found = old >> shift; \
            if (found != *(type *)expected) { \
                *(type *)expected = found; \
                return false; \
            } \
            new = (old & ~(mask_##size << shift)) | (uint32_t)value << shift; \
        } while (!__atomic_compare_exchange_n(word, &old, new, true, __ATOMIC_SEQ_CST, \
                                              __ATOMIC_SEQ_CST)); \
        return true; \
    } \
    type sync_value_##size(volatile void *, type, \
                           type) __asm__("__sync_val_compare_and_swap_" #size); \
    type sync_value_##size(volatile void *at, type expected, type value) { \
        atomic_compare_exchange_##size(at, &expected, value, false, 0, 0); \
        return expected; \
    } \
    bool sync_bool_##size(volatile void *, type, \
                          type) __asm__("__sync_bool_compare_and_swap_" #size); \
    bool sync_bool_##size(volatile void *at, type expected, type value) { \
        return atomic_compare_exchange_##size(at, &expected, value, false, 0, 0); \
    } \
    type atomic_load_##size(volatile void *, int) __asm__("__atomic_load_" #size); \
    type atomic_load_##size(volatile void *at, int order) { \
        return __atomic_load_n(word_##size(at), __ATOMIC_SEQ_CST) >> shift_##size(at); \
    } \
    CHANGE(size, type, exchange, value, old_) \
    CHANGE(size, type, fetch_add, old_ + value, old_) \
    CHANGE(size, type, add_fetch, old_ + value, new_) \
    CHANGE(size, type, fetch_sub, old_ - value, old_) \
    CHANGE(size, type, sub_fetch, old_ - value, new_) \
    CHANGE(size, type, fetch_and, (old_ & value), old_) \
    CHANGE(size, type, and_fetch, (old_ & value), new_) \
    CHANGE(size, type, fetch_or, old_ | value, old_) \
    CHANGE(size, type, or_fetch, old_ | value, new_) \
    CHANGE(size, type, fetch_xor, old_ ^ value, old_) \
    CHANGE(size, type, xor_fetch, old_ ^ value, new_) \
    CHANGE(size, type, fetch_nand, ~(old_ & value), old_) \
    CHANGE(size, type, nand_fetch, ~(old_ & value), new_) \
    void atomic_store_##size(volatile void *, type, int) __asm__("__atomic_store_" #size); \
    void atomic_store_##size(volatile void *at, type value, int order) { \
        atomic_exchange_##size(at, value, order); \
    }

#define CHANGE(size, type, name, formula, answer) \
    type atomic_##name##_##size(volatile void *, type, int) __asm__("__atomic_" #name "_" #size); \
    type atomic_##name##_##size(volatile void *at, type value, int order) { \
        uint32_t *word = word_##size(at), old = __atomic_load_n(word, __ATOMIC_SEQ_CST), new; \
        unsigned shift = shift_##size(at); \
        type old_, new_; \
        do { \
            old_ = old >> shift; \
            new_ = formula; \
            new = (old & ~(mask_##size << shift)) | (uint32_t)new_ << shift; \
        } while (!__atomic_compare_exchange_n(word, &old, new, true, __ATOMIC_SEQ_CST, \
                                              __ATOMIC_SEQ_CST)); \
        return answer; \
    }

OPERATIONS(1, uint8_t)
OPERATIONS(2, uint16_t)
