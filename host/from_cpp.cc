// The entries on records and on rows as C++ calls them, by the same header. host/header.c calls them this way too.
#include "zanikory.h"

extern "C" uint8_t answer_record_from_cpp(const uint8_t *request, size_t request_length, uint8_t *answer,
                                          size_t answer_length)
{
    return zanikory_answer_record(request, request_length, answer, answer_length);
}

extern "C" uint8_t svd_3x3_row_from_cpp(const uint8_t *matrices, size_t matrices_length, uint8_t *answers,
                                        size_t answers_length)
{
    return zanikory_svd_3x3_row(matrices, matrices_length, answers, answers_length);
}
