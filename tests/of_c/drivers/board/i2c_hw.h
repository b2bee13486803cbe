#include <stdint.h>
typedef struct { volatile uint32_t S; } I2C_Type;
#define I2C0 ((I2C_Type *)0x40066000)
enum { kI2C_NackFlag = 1, kI2C_ErrFlag = 2, kI2C_DoneFlag = 4 };
uint32_t I2C_GetStatusFlags(I2C_Type *base);
void I2C_ClearFlags(I2C_Type *base, uint32_t flags);
void I2C_StartWrite(I2C_Type *base, uint8_t address, uint16_t where, const uint8_t *data, size_t length);
