#include <stdint.h>
typedef int gpio_num_t; typedef int esp_err_t;
enum { GPIO_NUM_12 = 12, GPIO_NUM_13, GPIO_NUM_14, GPIO_NUM_15 };
enum { GPIO_INTR_NEGEDGE = 2, GPIO_MODE_INPUT = 1 };
typedef struct { uint64_t pin_bit_mask; int mode, pull_up_en, intr_type; } gpio_config_t;
#define IRAM_ATTR
#define BIT0 1
#define BIT1 2
#define BIT2 4
#define BIT3 8
esp_err_t gpio_config(const gpio_config_t *c);
int gpio_get_level(gpio_num_t n);
esp_err_t gpio_install_isr_service(int flags);
esp_err_t gpio_isr_handler_add(gpio_num_t n, void (*f)(void *), void *arg);
