/*
 * As much of C's library as the C programs here call, over the system calls of Linux on x86-64 and on 64-bit Arm, for a
 * machine where no C compiler is but the kit's clang, which has neither headers nor a library (tools/compile-c).
 */
#include <stdbool.h>
#include <stdint.h>
#include <stdio.h>
#include <string.h>

enum { BUFFER = 65536 };

#ifdef __aarch64__
enum { READ = 63, WRITE = 64, OPEN_AT = 56, CLOSE = 57, EXIT = 93 };

static long call(long number, long a, long b, long c)
{
    register long which __asm__("x8") = number, first __asm__("x0") = a, second __asm__("x1") = b, third __asm__("x2") = c;
    __asm__ volatile("svc 0" : "+r"(first) : "r"(which), "r"(second), "r"(third) : "memory");
    return first;
}
#else
enum { READ = 0, WRITE = 1, OPEN_AT = 257, CLOSE = 3, EXIT = 60 };

static long call(long number, long a, long b, long c)
{
    long answer;
    __asm__ volatile("syscall" : "=a"(answer) : "a"(number), "D"(a), "S"(b), "d"(c) : "rcx", "r11", "memory");
    return answer;
}
#endif

/* ---- Memory; nothing in a loop may be made a call of the function that it is in: -fno-builtin ---- */

void *memcpy(void *to, const void *from, size_t count)
{
    for (size_t i = 0; i < count; i++)
        ((uint8_t *)to)[i] = ((const uint8_t *)from)[i];
    return to;
}

void *memmove(void *to, const void *from, size_t count)
{
    if ((uintptr_t)to <= (uintptr_t)from)
        return memcpy(to, from, count);
    for (size_t i = count; i > 0; i--)
        ((uint8_t *)to)[i - 1] = ((const uint8_t *)from)[i - 1];
    return to;
}

void *memset(void *to, int octet, size_t count)
{
    for (size_t i = 0; i < count; i++)
        ((uint8_t *)to)[i] = (uint8_t)octet;
    return to;
}

int memcmp(const void *a, const void *b, size_t count)
{
    const uint8_t *first = a, *second = b;

    for (size_t i = 0; i < count; i++)
        if (first[i] != second[i])
            return first[i] < second[i] ? -1 : 1;
    return 0;
}

int strcmp(const char *a, const char *b)
{
    for (; *a != 0 && *a == *b; a++)
        b++;
    return (unsigned char)*a - (unsigned char)*b;
}

/* ---- Files: read octets lie in the buffer between `at` and `end`, written ones before `end` -------- */

struct file {
    long number;
    bool failed;
    size_t at, end;
    uint8_t buffer[BUFFER];
};

enum { HERE = -100 }; /* names are told from the folder that the program runs in */

static struct file in = {.number = 0}, out = {.number = 1}, errors = {.number = 2}, opened;
FILE *const stdin = &in, *const stdout = &out, *const stderr = &errors;

FILE *fopen(const char *name, const char *mode)
{
    (void)mode;
    opened = (struct file){.number = call(OPEN_AT, HERE, (long)name, 0)};
    return opened.number < 0 ? NULL : &opened;
}

int fclose(FILE *file)
{
    return call(CLOSE, file->number, 0, 0) < 0 ? EOF : 0;
}

int ferror(FILE *file)
{
    return file->failed;
}

size_t fread(void *into, size_t size, size_t count, FILE *file)
{
    for (size_t i = 0; i < size * count; i++) {
        if (file->at == file->end) {
            long got = call(READ, file->number, (long)file->buffer, BUFFER);
            file->failed = file->failed || got < 0;
            if (got <= 0)
                return i / size;
            file->at = 0;
            file->end = (size_t)got;
        }
        ((uint8_t *)into)[i] = file->buffer[file->at++];
    }
    return count;
}

int getchar(void)
{
    uint8_t octet;

    return fread(&octet, 1, 1, stdin) == 1 ? octet : EOF;
}

int fflush(FILE *file)
{
    for (size_t at = 0; at < file->end && !file->failed;) {
        long put = call(WRITE, file->number, (long)(file->buffer + at), (long)(file->end - at));
        file->failed = put <= 0;
        at += put > 0 ? (size_t)put : 0;
    }
    file->end = 0;
    return file->failed ? EOF : 0;
}

size_t fwrite(const void *from, size_t size, size_t count, FILE *file)
{
    for (size_t i = 0; i < size * count; i++) {
        if (file->end == BUFFER && fflush(file) != 0)
            return i / size;
        file->buffer[file->end++] = ((const uint8_t *)from)[i];
    }
    return count;
}

/* ---- Text ------------------------------------------------------------------------------------------ */

static void put_text(FILE *file, const char *text)
{
    for (; *text != 0; text++)
        fwrite(text, 1, 1, file);
}

static void put_number(FILE *file, uint64_t number, uint64_t base, size_t width, const char *digits)
{
    char text[21] = "";
    size_t at = 20;

    for (; number > 0 || at > 20 - width; number /= base)
        text[--at] = digits[number % base];
    put_text(file, text + at);
}

static int print(FILE *file, const char *form, __builtin_va_list words)
{
    for (; *form != 0; form++) {
        if (*form != '%') {
            fwrite(form, 1, 1, file);
            continue;
        }
        size_t width = form[1] == '0' ? 2 : 1;
        form += form[1] == '0' ? 3 : form[1] == 'z' ? 2 : 1;
        if (*form == 's')
            put_text(file, __builtin_va_arg(words, const char *));
        else if (*form == 'x' || *form == 'X')
            put_number(file, __builtin_va_arg(words, unsigned), 16, width, *form == 'x' ? "0123456789abcdef" : "0123456789ABCDEF");
        else
            put_number(file, form[-1] == 'z' ? __builtin_va_arg(words, size_t) : __builtin_va_arg(words, unsigned), 10, width, "0123456789");
    }
    return 0;
}

int printf(const char *form, ...)
{
    __builtin_va_list words;

    __builtin_va_start(words, form);
    print(stdout, form, words);
    __builtin_va_end(words);
    return 0;
}

int fprintf(FILE *file, const char *form, ...)
{
    __builtin_va_list words;

    __builtin_va_start(words, form);
    print(file, form, words);
    __builtin_va_end(words);
    return 0;
}

/* ---- The start: the stack has the count of words and then the words --------------------------------- */

int main(int count, char **words);

__attribute__((used)) static void start(long *stack)
{
    int status = main((int)stack[0], (char **)(stack + 1));

    fflush(stdout);
    fflush(stderr);
    call(EXIT, status, 0, 0);
}

#ifdef __aarch64__
__asm__(".globl _start\n_start: mov x29, xzr\n mov x30, xzr\n mov x0, sp\n bl start\n");
#else
__asm__(".globl _start\n_start: xor %ebp, %ebp\n mov %rsp, %rdi\n and $-16, %rsp\n call start\n");
#endif
