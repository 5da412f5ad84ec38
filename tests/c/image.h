/* The header's record, layout 3, as the model's record, and back. */
#ifndef IMAGE_H
#define IMAGE_H

#include "k5l2931cam.h"
#include "model.h"

void image_encode(const struct model_record *record, uint64_t image[K5L_RECORD_WORDS]);

/* False if the image stands for no record: another length or layout, a word out of its field's range, or an unused one that
 * is not 0. */
bool image_decode(const uint64_t *image, size_t words, struct model_record *record);

#endif
