/* Questions and answers as the bytes that go through the probe. */
#ifndef WIRE_H
#define WIRE_H

#include "independent/questions.h"

enum { QUESTION_BYTES = 24, ANSWER_BYTES = 16 };

struct question {
    uint64_t call, first, second;
};

static inline void put_number(unsigned char *bytes, uint64_t number)
{
    for (int i = 0; i < 8; i++)
        bytes[i] = (unsigned char)(number >> (8 * i));
}

static inline uint64_t get_number(const unsigned char *bytes)
{
    uint64_t number = 0;
    for (int i = 0; i < 8; i++)
        number |= (uint64_t)bytes[i] << (8 * i);
    return number;
}

static inline void put_question(unsigned char bytes[QUESTION_BYTES], struct question question)
{
    put_number(bytes, question.call);
    put_number(bytes + 8, question.first);
    put_number(bytes + 16, question.second);
}

static inline struct answer get_answer(const unsigned char bytes[ANSWER_BYTES])
{
    return (struct answer){ .code = get_number(bytes), .bits = get_number(bytes + 8) };
}

#endif
