/* Assertions. POSIX.1-2017: <assert.h>. This header may be included again, with NDEBUG or without. */
#undef assert

#ifdef __cplusplus
extern "C" {
#endif

/* Puts what failed and where it stands on the console, and stops the partition as abort does. */
void assertion_failed(const char *expression, const char *file, int line, const char *function)
    __attribute__((__noreturn__));

#ifdef __cplusplus
}
#endif

#ifdef NDEBUG
#define assert(expression) ((void)0)
#else
/* Where the expression is 0, puts it on the console and stops the partition as abort does.
 * POSIX.1-2017: assert. */
#define assert(expression) ((expression) ? (void)0 : assertion_failed(#expression, __FILE__, __LINE__, __func__))
#endif

#if !defined(static_assert) && !defined(__cplusplus)
#define static_assert _Static_assert
#endif
