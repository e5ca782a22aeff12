/* Draws what the program of crates/flat_render_bench draws, with pixman:

     cc -O2 bench/pixman.c -o pixman $(pkg-config --cflags --libs pixman-1)
     ./pixman KIND COUNT WIDTH HEIGHT ROUNDS

   bench/pictures builds and runs it. Kind 4 fills the whole picture by memset, as often
   as there are items. */
#include <pixman.h>
#include <stdio.h>
#include <stdlib.h>
#include <string.h>

enum { PICTURE_WIDTH = 1920, PICTURE_HEIGHT = 1080 };

int main(int argc, char **argv) {
  if (argc != 6)
    return 2;
  int kind = atoi(argv[1]), count = atoi(argv[2]), w = atoi(argv[3]), h = atoi(argv[4]), rounds = atoi(argv[5]);
  pixman_image_t *picture = pixman_image_create_bits(PIXMAN_a8r8g8b8, PICTURE_WIDTH, PICTURE_HEIGHT, NULL, 0);
  pixman_image_t *buffer = pixman_image_create_bits(PIXMAN_a8r8g8b8, w, h, NULL, 0);
  uint32_t *texels = pixman_image_get_data(buffer);
  for (int i = 0; i < w * h; i++)
    texels[i] = 0xff000000u | ((i * 2654435761u) >> 8);
  pixman_color_t half = {0, 0, 0, 0x8000};
  pixman_image_t *mask = pixman_image_create_solid_fill(&half);
  pixman_color_t black = {0, 0, 0, 0xffff};
  pixman_rectangle16_t all = {0, 0, PICTURE_WIDTH, PICTURE_HEIGHT};
  unsigned long sum = 0;
  for (int round = 0; round < rounds; round++) {
    pixman_image_fill_rectangles(PIXMAN_OP_SRC, picture, &black, 1, &all);
    for (int n = 0; n < count; n++) {
      int x = n * 37L % (PICTURE_WIDTH - w + 1), y = n * 53L % (PICTURE_HEIGHT - h + 1);
      if (kind < 2) {
        long alpha = kind == 0 ? 0xffff : 0x8080;
        pixman_color_t colour = {n % 256 * 257 * alpha / 0xffff, 100 * 257 * alpha / 0xffff, 200 * 257 * alpha / 0xffff, alpha};
        pixman_rectangle16_t rect = {x, y, w, h};
        pixman_image_fill_rectangles(kind == 0 ? PIXMAN_OP_SRC : PIXMAN_OP_OVER, picture, &colour, 1, &rect);
      } else if (kind == 2) {
        pixman_image_composite32(PIXMAN_OP_SRC, buffer, NULL, picture, 0, 0, 0, 0, x, y, w, h);
      } else if (kind == 3) {
        pixman_image_composite32(PIXMAN_OP_OVER, buffer, mask, picture, 0, 0, 0, 0, x, y, w, h);
      } else {
        memset(pixman_image_get_data(picture), n, 4L * PICTURE_WIDTH * PICTURE_HEIGHT);
      }
    }
    sum += pixman_image_get_data(picture)[PICTURE_HEIGHT / 2 * PICTURE_WIDTH + PICTURE_WIDTH / 2] >> 16 & 255;
  }
  printf("%lu\n", sum);
  return 0;
}
