/* The C library's XDR on the largest array of bytes and on an array of records of two numbers, timed. */
#include <rpc/rpc.h>
#include <stdint.h>
#include <stdio.h>
#include <stdlib.h>
#include <time.h>

enum { RUNS = 5, BULK = 92156, RECORDS = 7000, ROOM = 200000 };

struct record {
    uint32_t card;
    uint64_t longcard;
};

static bool_t record(XDR *xdr, void *at)
{
    struct record *r = at;
    return xdr_uint32_t(xdr, &r->card) && xdr_uint64_t(xdr, &r->longcard);
}

static bool_t bytes_once(XDR *xdr, void **at)
{
    char **text = (char **)at;
    u_int count = BULK;
    return xdr_bytes(xdr, text, &count, BULK);
}

static bool_t records_once(XDR *xdr, void **at)
{
    char **all = (char **)at;
    u_int count = RECORDS;
    return xdr_array(xdr, all, &count, RECORDS, sizeof(struct record), (xdrproc_t)record);
}

static uint64_t nanoseconds(void)
{
    struct timespec now;
    clock_gettime(CLOCK_MONOTONIC, &now);
    return (uint64_t)now.tv_sec * 1000000000u + (uint64_t)now.tv_nsec;
}

static void run(const char *name, bool_t (*once)(XDR *, void **), void *values, unsigned rounds)
{
    char *room = malloc(ROOM);
    uint64_t best[2] = {UINT64_MAX, UINT64_MAX};
    u_int length = 0;
    if (room == NULL)
        exit(1);
    for (int turn = 0; turn < RUNS; turn++) {
        uint64_t start = nanoseconds();
        for (unsigned i = 0; i < rounds; i++) {
            XDR xdr;
            xdrmem_create(&xdr, room, ROOM, XDR_ENCODE);
            if (!once(&xdr, &values))
                exit(1);
            length = xdr_getpos(&xdr);
        }
        uint64_t spent = nanoseconds() - start;
        best[0] = spent < best[0] ? spent : best[0];
        start = nanoseconds();
        for (unsigned i = 0; i < rounds; i++) {
            XDR xdr;
            void *got = NULL;
            xdrmem_create(&xdr, room, length, XDR_DECODE);
            if (!once(&xdr, &got))
                exit(1);
            free(got);
        }
        spent = nanoseconds() - start;
        best[1] = spent < best[1] ? spent : best[1];
    }
    printf("xdr_put %s %u %u %llu\n", name, length, rounds, (unsigned long long)best[0]);
    printf("xdr_get %s %u %u %llu\n", name, length, rounds, (unsigned long long)best[1]);
    free(room);
}

int main(void)
{
    char *text = malloc(BULK);
    struct record *records = malloc(RECORDS * sizeof(struct record));
    if (text == NULL || records == NULL)
        return 1;
    for (int i = 0; i < BULK; i++)
        text[i] = 7;
    for (int i = 0; i < RECORDS; i++)
        records[i] = (struct record){(uint32_t)i, (uint64_t)i << 32};
    run("bytes", bytes_once, text, 4000);
    run("records", records_once, records, 200);
    free(text);
    free(records);
    return 0;
}
