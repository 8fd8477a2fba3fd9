/* What the compiler calls for C++, without exceptions and type information (the Itanium C++ ABI): new and delete over
 * malloc and free, static objects of functions, and a call of a function that is pure virtual. */
#include <stddef.h>
#include <stdint.h>
#include <stdlib.h>


/* There are no exceptions: where there is no memory the program stops. A program that goes on calls malloc. */
void *operator new(size_t size)
{
    void *piece = malloc(size);
    if (piece == nullptr) {
        abort();
    }
    return piece;
}

void *operator new[](size_t size)
{
    return operator new(size);
}

void operator delete(void *piece) noexcept
{
    free(piece);
}

void operator delete[](void *piece) noexcept
{
    free(piece);
}

void operator delete(void *piece, size_t) noexcept
{
    free(piece);
}

void operator delete[](void *piece, size_t) noexcept
{
    free(piece);
}

extern "C" {

void __cxa_pure_virtual()
{
    abort();
}

void __cxa_deleted_virtual()
{
    abort();
}
}
