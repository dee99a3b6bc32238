/* The layer array's library for C. Build it by `rt lib` in crates/wavenet: crates/wavenet/out/libwavenet.a.
 *
 * Every function takes any numbers and any lengths, ends, and does nothing undefined, as long as each pointer has as many numbers behind it as its length
 * says and the buffers do not overlap. It answers 0, or the refusal number that comes first in this order; refused, it leaves every buffer as
 * it was, scratch too.
 *
 *   1 the description is shorter than 8 numbers, or not 8 + 24 L long
 *   2 a number of it breaks its range or its zero rule
 *   3 groups do not divide
 *   4 widths do not meet: no layer1x1 and bottleneck is not channels, or a layer's head width is not head-in
 *   5 weights or histories are more than 1,048,576 numbers
 *   6 n is above 1024
 *   7 a buffer's length is not width x n or not its size; or scratch is shorter than 16 x W x n
 *   8 a position is not below its ring length
 *   9 the plan breaks its rule
 *
 * A description is whole numbers of 32 bits: eight for the array (input width, condition width, channels, head-in width, head size, head kernel, head
 * bias, layers L), then 24 for each layer. Weights, histories and positions are as long as wavenet_sizes tells, and histories and positions are yours
 * to keep between calls: they are all the memory that there is. Every call needs the same description and weights as the calls before it. */
#ifndef WAVENET_H
#define WAVENET_H
#include <stddef.h>
#include <stdint.h>
#ifdef __cplusplus
extern "C" {
#endif

/* The sizes of a description: weights, histories, positions, W, memory depth. Refusals 1 to 5; sizes is untouched then. */
uint32_t wavenet_sizes(const uint32_t *description, size_t description_length, uint32_t sizes[5]);

/* The memory as it is before the first column: histories +0, positions ring length - 1. Refusals 1 to 5, and 7 where a length is not the size that
 * wavenet_sizes tells. */
uint32_t wavenet_reset(const uint32_t *description, size_t description_length, float *histories, size_t histories_length,
                       uint32_t *positions, size_t positions_length);

/* One column. Lengths: input, condition and head_in their widths; head_out the head size; array_out the channels; scratch at least 16 x W, more is fine,
 * and what it holds does not matter. Writes head_out, array_out, histories, positions; scratch is used up. Refusals 1 to 5, 7, 8. */
uint32_t wavenet_column(const uint32_t *description, size_t description_length, const float *weights, size_t weights_length,
                        float *histories, size_t histories_length, uint32_t *positions, size_t positions_length,
                        const float *input, size_t input_length, const float *condition, size_t condition_length,
                        const float *head_in, size_t head_in_length, float *head_out, size_t head_out_length,
                        float *array_out, size_t array_out_length, float *scratch, size_t scratch_length);

/* A block of n columns, 0 to 1024, planar: channel c of column t at c x n + t. Every block buffer is width x n long, scratch at least 16 x W x n.
 * The same numbers come out, to the bit, as from the n columns one at a time. n = 0 is tested like any other and changes nothing. Refusals 1 to 8. */
uint32_t wavenet_block(const uint32_t *description, size_t description_length, const float *weights, size_t weights_length,
                       float *histories, size_t histories_length, uint32_t *positions, size_t positions_length,
                       const float *input, size_t input_length, const float *condition, size_t condition_length,
                       const float *head_in, size_t head_in_length, float *head_out, size_t head_out_length,
                       float *array_out, size_t array_out_length, float *scratch, size_t scratch_length, size_t n);

/* The same in the turns of a plan: pairs (stage, count), stage 0 the rechannel, 1 to L the layers, L + 1 the head rechannel. Each count is at least 1, no
 * stage gets ahead of the one before it, and at the end all stand at n. Refusals 1 to 9. */
uint32_t wavenet_planned(const uint32_t *description, size_t description_length, const float *weights, size_t weights_length,
                         float *histories, size_t histories_length, uint32_t *positions, size_t positions_length,
                         const float *input, size_t input_length, const float *condition, size_t condition_length,
                         const float *head_in, size_t head_in_length, float *head_out, size_t head_out_length,
                         float *array_out, size_t array_out_length, float *scratch, size_t scratch_length, size_t n,
                         const uint32_t *plan, size_t plan_length);

/* Our own exp and tanh: within one float of the correctly rounded value on every input, NaN for NaN. */
float wavenet_exp(float x);
float wavenet_tanh(float x);

#ifdef __cplusplus
}
#endif
#endif
