typedef struct { volatile uint32_t CR1, CR2, SR, DR; } SPI_TypeDef;
typedef struct { volatile uint32_t LISR, HISR, LIFCR, HIFCR; } DMA_TypeDef;
typedef struct { volatile uint32_t CR, NDTR, PAR, M0AR; } DMA_Stream_TypeDef;
typedef struct { volatile uint32_t MODER, BSRR; } GPIO_TypeDef;
#define SPI1 ((SPI_TypeDef *)0x40013000)
#define DMA2 ((DMA_TypeDef *)0x40026400)
#define DMA2_Stream0 ((DMA_Stream_TypeDef *)0x40026410)
#define DMA2_Stream3 ((DMA_Stream_TypeDef *)0x40026458)
#define GPIOA ((GPIO_TypeDef *)0x40020000)
#define SPI_CR2_RXDMAEN 1u
#define SPI_CR2_TXDMAEN 2u
#define DMA_SxCR_EN 1u
#define DMA_LISR_TCIF0 (1u << 5)
#define DMA_LIFCR_CTCIF0 (1u << 5)
enum { DMA2_Stream0_IRQn = 56 };
#define configLIBRARY_MAX_SYSCALL_INTERRUPT_PRIORITY 5
void NVIC_SetPriority(int irq, unsigned priority);
void NVIC_EnableIRQ(int irq);
void SystemInit(void);
