#include <stdint.h>
#include <stdbool.h>
typedef struct { volatile uint32_t SR, DR, BRR, CR1; } MB_UART_TypeDef;
#define MB_UART ((MB_UART_TypeDef *)0x40004800)
#define MB_UART_SR_RXNE (1u << 5)
void mb_port_init(uint32_t baud);
