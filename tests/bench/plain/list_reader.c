/*
 * Reads a list in two passes, element by element: the first judges all of it, the second
 * fills the rows and the store.
 */
#include "list.h"

/* The bytes, how far they were judged, the lists open there, and the first fault once one is
 * found. */
struct judge {
    const uint8_t *bytes;
    size_t length;
    size_t at;
    unsigned open;
    unsigned error;
    size_t fault;
};

static bool refuse(struct judge *judge, unsigned error, size_t at)
{
    judge->error = error;
    judge->fault = at;
    return false;
}

/* Whether the next item has all its bytes. */
static bool have(struct judge *judge, size_t size)
{
    if (judge->at + size > LIST_LIMIT)
        return refuse(judge, BEYOND_LIMIT, judge->at);
    if (judge->at + size > judge->length)
        return refuse(judge, BYTES_END, judge->at);
    return true;
}

static bool judge_fixed(struct judge *judge, size_t size)
{
    if (!have(judge, size))
        return false;
    judge->at += size;
    return true;
}

static bool judge_bytes(struct judge *judge, uint32_t kind)
{
    if (!have(judge, WORD))
        return false;
    int32_t length = signed_at(judge->bytes + judge->at);
    if (length < (kind == STRING ? 1 : 0))
        return refuse(judge, BAD_STRING_OR_BLOB, judge->at);
    judge->at += WORD;
    if (!have(judge, (size_t)length))
        return false;
    const uint8_t *first = judge->bytes + judge->at;
    if (kind == STRING && memchr(first, 0, (size_t)length) != first + length - 1)
        return refuse(judge, BAD_STRING_OR_BLOB, judge->at);
    judge->at += (size_t)length;
    return true;
}

static bool judge_value(struct judge *judge, uint32_t kind)
{
    switch (kind) {
    case INT:
    case VOCAB:
        return judge_fixed(judge, WORD);
    case FLOAT:
        return judge_fixed(judge, 2 * WORD);
    default:
        return judge_bytes(judge, kind);
    }
}

static bool judge_list(struct judge *judge);

/* An element behind its code; `seen` becomes the code that the elements have in common. */
static bool judge_element(struct judge *judge, uint32_t *seen)
{
    if (!have(judge, WORD))
        return false;
    uint32_t code = word_at(judge->bytes + judge->at);
    if (is_kind(code)) {
        *seen = *seen == 0 || *seen == code ? code : LIST;
        judge->at += WORD;
        return judge_value(judge, code);
    }
    if (!is_list_code(code))
        return refuse(judge, UNKNOWN_CODE, judge->at);
    *seen = LIST;
    return judge_list(judge);
}

/* The list whose code was seen to be a list's. A fault leaves it open. */
static bool judge_list(struct judge *judge)
{
    size_t front = judge->at;
    if (judge->open == DEPTH_LIMIT)
        return refuse(judge, TOO_DEEP, front);
    uint32_t code = word_at(judge->bytes + front);
    judge->at += WORD;
    judge->open++;
    if (!have(judge, WORD))
        return false;
    int32_t count = signed_at(judge->bytes + judge->at);
    if (count < 0)
        return refuse(judge, COUNT_BELOW_0, judge->at);
    judge->at += WORD;
    uint32_t seen = 0;
    for (int32_t number = 0; number < count; number++) {
        if (!(code == LIST ? judge_element(judge, &seen) : judge_value(judge, code - LIST)))
            return false;
    }
    bool one_kind = seen != 0 && seen != LIST;
    if (code == LIST ? one_kind : count == 0)
        return refuse(judge, WRONG_LIST_CODE, front);
    judge->open--;
    return true;
}

/* Where the next element stands, and the next row; the bytes of the store in use. */
struct filler {
    const uint8_t *at;
    uint8_t *row, *store;
    uint32_t used;
};

static void put_row(struct filler *filler, uint32_t code, uint32_t second, uint32_t third)
{
    memcpy(filler->row, &code, WORD);
    memcpy(filler->row + WORD, &second, WORD);
    memcpy(filler->row + 2 * WORD, &third, WORD);
    filler->row += ROW;
}

static void fill_value(struct filler *filler, uint32_t kind)
{
    uint32_t first = word_at(filler->at);
    filler->at += WORD;
    switch (kind) {
    case INT:
    case VOCAB:
        put_row(filler, kind, first, 0);
        break;
    case FLOAT:
        put_row(filler, kind, first, word_at(filler->at));
        filler->at += WORD;
        break;
    default: {
        uint32_t length = kind == STRING ? first - 1 : first;
        put_row(filler, kind, filler->used, length);
        memcpy(filler->store + filler->used, filler->at, length);
        filler->used += length;
        filler->at += first;
    }
    }
}

static void fill_list(struct filler *filler)
{
    uint32_t code = word_at(filler->at);
    uint32_t count = word_at(filler->at + WORD);
    filler->at += 2 * WORD;
    put_row(filler, LIST, count, 0);
    for (uint32_t number = 0; number < count; number++) {
        uint32_t kind = code == LIST ? word_at(filler->at) : code - LIST;
        if (kind >= LIST) {
            fill_list(filler);
            continue;
        }
        if (code == LIST)
            filler->at += WORD;
        fill_value(filler, kind);
    }
}

static cinder_list_result decode_at(const uint8_t *bytes, size_t bytes_len, size_t offset,
                                    uint8_t *rows, uint8_t *store)
{
    struct judge judge = {.bytes = bytes + offset, .length = bytes_len - offset};
    if (!have(&judge, WORD))
        return refused(judge.error, offset, 0);
    if (!is_list_code(word_at(judge.bytes)))
        return refused(NOT_A_LIST, offset, 0);
    if (!judge_list(&judge))
        return refused(judge.error, offset + judge.fault, judge.open);
    struct filler filler = {.at = judge.bytes, .row = rows, .store = store};
    fill_list(&filler);
    return (cinder_list_result){
        .consumed = judge.at,
        .rows = (uint64_t)(filler.row - rows) / ROW,
        .stored = filler.used,
    };
}

cinder_list_result plain_list_decode(const uint8_t *bytes, size_t bytes_len,
                                     uint8_t *rows, size_t rows_len,
                                     uint8_t *store, size_t store_len)
{
    return list_decode_by(decode_at, bytes, bytes_len, rows, rows_len, store, store_len);
}

cinder_list_result plain_stream_next(const uint8_t *bytes, size_t bytes_len, uint64_t offset,
                                     uint8_t *rows, size_t rows_len,
                                     uint8_t *store, size_t store_len)
{
    return stream_next_by(decode_at, bytes, bytes_len, offset, rows, rows_len, store, store_len);
}
