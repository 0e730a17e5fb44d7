/* gitpool as a C library: the Git repositories of many tenants in memory, over one store of contents.
 *
 *     gitpool_service service = GITPOOL_EMPTY;
 *     gitpool_reply reply = GITPOOL_EMPTY;
 *     if (gitpool_new(&service) != 0 || gitpool_reply_new(&reply) != 0) { no memory }
 *     uint32_t fault = gitpool_open(&service, tenant, tenant_length, &reply);
 *
 * Link with libgitpool.a or libgitpool.so. The library has no start-up, no threads, no files and no clock. From the C library it takes
 * malloc, realloc, free and the calls that copy memory. It ends no process: where memory runs out, a call answers 90.
 *
 * Answers
 *
 * A call that can be refused answers the number of its fault, and 0 if all went well. docs/FAULTS.md says what each number means, what
 * usually causes it and what to do; the comments below say what is left. These numbers do not change from version to version.
 *
 * Handles
 *
 * A service, a reply and a list of sizes are handles: structs that you own, each with one pointer to memory of the library. A handle
 * begins empty, as GITPOOL_EMPTY. gitpool_new, gitpool_load and gitpool_load_lent fill a service, gitpool_reply_new a reply and
 * gitpool_list_sizes a list. After a fault of these the handle is as it was. The calls that end in _free give the memory back and leave the
 * handle empty.
 * `handle.at == NULL` tells whether a handle is empty; do not use `at` otherwise. The struct may be moved: copy it, and forget the first.
 *
 * Your duty
 *
 * The library is proved for every caller that meets these conditions, and nothing checks them:
 * - A handle that is passed was filled by one of the calls above, and was not freed since. Only the calls that fill a handle take an empty
 *   one. If they are given a filled one, its memory is lost.
 * - A handle stays on the thread that filled it: no other thread gives it to a call, not even later. It is not proved that a handle may be
 *   moved to another thread. Different threads may have services, replies and lists of their own.
 * - No call is made from a signal handler, or from the forked child of a process with threads.
 * - No pointer is NULL, also where the length beside it is 0. The memory at a pointer has that length, no other thread changes it during
 *   the call, and each of its bytes has been set. This holds for memory that a call only writes too: set a `room`, a `told` and a `totals`
 *   to zeros once. The pointers of one call do not overlap, except two that are only read.
 * - The bytes that gitpool_load_lent is given stay where and as they are for as long as the process lives, also after gitpool_free. Nobody writes
 *   into them, frees or unmaps them. If they are those of a file that is mapped, nobody writes into the file or shortens it; another file may
 *   take its name.
 * - malloc and realloc give memory that is aligned to 16 bytes, and they and free are of one allocator, as those of each C library are.
 *
 * Bytes
 *
 * Names, streams, queries and files are a pointer and a length. They may have any bytes, also zeros, and need no zero at the end. The
 * library reads them during the call only, and keeps copies of what it needs, but for gitpool_load_lent, which keeps contents where they are.
 * Bytes that the library hands out are copied to room of yours.
 */
#ifndef GITPOOL_H
#define GITPOOL_H

#include <stdbool.h>
#include <stddef.h>
#include <stdint.h>

#define GITPOOL_VERSION "0.4.0"
#define GITPOOL_VERSION_MAJOR 0
#define GITPOOL_VERSION_MINOR 4
#define GITPOOL_VERSION_PATCH 0

/* The longest name of a tenant, in bytes. */
#define GITPOOL_TENANT_NAME_LIMIT 64

/* A handle that is not filled, for its definition: gitpool_service service = GITPOOL_EMPTY; */
#define GITPOOL_EMPTY { 0 }

#ifdef __cplusplus
extern "C" {
#endif

/* The repositories and streams of any number of tenants. */
typedef struct gitpool_service { void *at; } gitpool_service;

/* The reply to the last call that was given it: its bytes, and the number that the call answered. */
typedef struct gitpool_reply { void *at; } gitpool_reply;

/* What each tenant has. */
typedef struct gitpool_sizes { void *at; } gitpool_sizes;

/* ---- A service ---- */

/* Makes a service without tenants.
 * 90: there is no memory. */
uint32_t gitpool_new(gitpool_service *service);

/* Makes a service of the bytes of a pool file. Each tenant of the file has its repository, and no stream.
 * 60 to 67, 69: the file is refused; the number is that of the first thing that is wrong with it.
 * 68: the file would take more than 2^32 reads of 65,536 bytes. No clause excludes this answer for a shorter file; tests do.
 * 90: there is no memory. */
uint32_t gitpool_load(gitpool_service *service, const uint8_t *file, size_t length);

/* The same without copies of contents: the service reads them from these bytes, such as those of a file that is mapped, for as long as it has
 * them. It answers and leaves what gitpool_load does of the same bytes. The duty above is for the life of the process. After gitpool_free the
 * library has no pointer to these bytes; but that is not proved, and the proofs take it that the bytes never change. */
uint32_t gitpool_load_lent(gitpool_service *service, const uint8_t *file, size_t length);

/* Saves the repositories of all tenants at their last checkpoints. The bytes of the reply are then the whole pool file, in memory. What a
 * running stream has not saved is left out. The service is as it was, and its streams go on.
 * 90: there is no memory; the reply has no bytes. */
uint32_t gitpool_save(gitpool_service *service, gitpool_reply *reply);

/* Gives the memory of a service back, with all its repositories, and leaves the handle empty. */
void gitpool_free(gitpool_service *service);

/* ---- Steps of a tenant ----
 *
 * A tenant is told, and has, what it would in a repository of its own. A tenant needs not be made: one that was never seen has an empty
 * repository. Each step empties the reply and fills it anew. Its answer is also gitpool_reply_fault(reply).
 * 32 in each step: the name is none of 1 to 64 bytes in parts of letters, digits, `-` and `_` between slashes, none of which begins with
 * `-`. Nothing has changed. */

/* Opens a stream of the tenant. The reply has no bytes.
 * 31: the tenant has a stream, even if it is dead. 90: there is no memory. After each of these nothing has changed. */
uint32_t gitpool_open(gitpool_service *service, const uint8_t *tenant, size_t tenant_length, gitpool_reply *reply);

/* Feeds the next bytes of the stream, which is one of git-fast-import(1), and may be cut at any byte. The bytes of the reply are what the
 * stream prints.
 * 30: the tenant has no stream; nothing has changed.
 * 1 to 25: a fault in the bytes. The reply has what was printed before it, the tenant is at its last checkpoint, and the stream is dead:
 * each later Feed answers this number, and so does the End.
 * 90: there is no memory, now or in an earlier Feed of the stream. gitpool_reply_items(reply) whole commands or data of this call took
 * effect, the tenant is at its last checkpoint, and the stream is dead. */
uint32_t gitpool_feed(gitpool_service *service, const uint8_t *tenant, size_t tenant_length, const uint8_t *bytes, size_t length,
                      gitpool_reply *reply);

/* Ends the stream and saves what it has made. Call it after a fault of the stream too: it always closes the stream.
 * 30: the tenant has no stream; nothing has changed.
 * 1 to 25, 90: a fault of the end, or that of an earlier Feed. The tenant is at its last checkpoint, and has no stream. */
uint32_t gitpool_end(gitpool_service *service, const uint8_t *tenant, size_t tenant_length, gitpool_reply *reply);

/* Answers a query, such as `refs` or `cat HEAD:README`, of the tenant at its last checkpoint, also while a stream runs. gitpool(1) lists the
 * queries. The bytes of the reply are the answer. Nothing changes.
 * 40, 41: the query is unknown or malformed. 15, 16, 17, 25: what it asks for is refused. 90: there is no memory. After each of these the
 * reply has no bytes. */
uint32_t gitpool_ask(gitpool_service *service, const uint8_t *tenant, size_t tenant_length, const uint8_t *query, size_t length,
                     gitpool_reply *reply);

/* Closes the streams of all tenants, and goes back to the last checkpoint of each. Answers 0. The reply has no bytes. */
uint32_t gitpool_restart(gitpool_service *service, gitpool_reply *reply);

/* ---- Calls of the operator ----
 *
 * These concern no stream of a client, and print nothing. No other tenant than the ones named changes.
 * 32 in each: a name is bad, as above. Nothing has changed. */

/* Copies the repository of `from`, as it is at its last checkpoint, to `to`, which has to be empty.
 * 31: `to` has a stream. 33: `to` has an object, a ref, or another HEAD than `refs/heads/main`. Nothing has changed.
 * 25: `from` has too many refs for an export. Nothing has changed.
 * 90: there is no memory. Either nothing has changed, or `to` has a part of the repository and no stream: remove it.
 * 1 to 25 otherwise: the export of `from` does not fit into a stream (docs/FORMATS.md, "Limits"). The same as for 90. */
uint32_t gitpool_copy(gitpool_service *service, const uint8_t *from, size_t from_length, const uint8_t *to, size_t to_length);

/* Removes a tenant: its objects, refs and HEAD, and its name. One that was never seen is removed too.
 * 31: the tenant has a stream, even if it is dead. Nothing has changed. */
uint32_t gitpool_remove(gitpool_service *service, const uint8_t *tenant, size_t tenant_length);

/* Empties the repository of a tenant of the objects that its refs do not reach, as `git gc --prune=now` does.
 * 31: the tenant has a stream, even if it is dead. 90: there is no memory. After each of these nothing has changed. */
uint32_t gitpool_compact(gitpool_service *service, const uint8_t *tenant, size_t tenant_length);

/* Gives up the stream of a tenant, running or dead. What is left is its last checkpoint, and no stream.
 * 30: the tenant has no stream. Nothing has changed. */
uint32_t gitpool_abandon(gitpool_service *service, const uint8_t *tenant, size_t tenant_length);

/* What all tenants have together. */
typedef struct gitpool_totals {
  uint64_t contents; /* distinct contents, those of running streams included */
  uint64_t bytes;    /* the sum of their sizes, or 2^64 - 1 if it is greater */
  uint64_t tenants;  /* tenants that have an object at their last checkpoint */
} gitpool_totals;

/* Tells how much is stored. Takes no memory. */
void gitpool_stored(gitpool_service *service, gitpool_totals *totals);

/* Fills `sizes`, which is empty, with what each tenant has at its last checkpoint, in rising order of the bytes of their names. Those
 * tenants are listed that gitpool_save saves. The list does not change when the service does.
 * 90: there is no memory. */
uint32_t gitpool_list_sizes(gitpool_service *service, gitpool_sizes *sizes);

/* ---- A reply ---- */

/* Makes a reply, which may be used for any number of calls of any services. It has no bytes, and its fault is 0.
 * 90: there is no memory. */
uint32_t gitpool_reply_new(gitpool_reply *reply);

/* The number that the last call answered: 0, or a fault. */
uint32_t gitpool_reply_fault(gitpool_reply *reply);

/* After a Feed that answered 90: how many whole items of its bytes, commands or data, took effect. Else 0. */
uint64_t gitpool_reply_items(gitpool_reply *reply);

/* The number of bytes of the reply. */
size_t gitpool_reply_length(gitpool_reply *reply);

/* Copies bytes of the reply from this one on, counted from 0, to `room`: as many as there are, and at most `length`. Answers how many.
 * The rest of `room` stays as it is. */
size_t gitpool_reply_read(gitpool_reply *reply, size_t from, uint8_t *room, size_t length);

/* Gives the memory of a reply back, and leaves the handle empty. */
void gitpool_reply_free(gitpool_reply *reply);

/* ---- A list of sizes ---- */

/* What one tenant has. A sum is 2^64 - 1 if it would be greater. */
typedef struct gitpool_tenant_sizes {
  uint64_t objects;      /* how many objects */
  uint64_t bytes;        /* the sum of their sizes */
  uint64_t own_bytes;    /* that sum without the objects whose contents another tenant has too */
  uint64_t refs;         /* how many refs */
  size_t tenant_length;  /* the length of its name, at most GITPOOL_TENANT_NAME_LIMIT */
} gitpool_tenant_sizes;

/* The number of tenants in the list. */
size_t gitpool_sizes_count(gitpool_sizes *sizes);

/* Tells what the tenant at this place has, counted from 0, and copies its name to `room`, or the first `length` bytes of it.
 * false: the list has no such place; `told` and `room` are as they were. */
bool gitpool_sizes_at(gitpool_sizes *sizes, size_t place, gitpool_tenant_sizes *told, uint8_t *room, size_t length);

/* Gives the memory of a list back, and leaves the handle empty. */
void gitpool_sizes_free(gitpool_sizes *sizes);

#ifdef __cplusplus
}
#endif

#endif
