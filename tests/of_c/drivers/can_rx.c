/* CAN receive with a queue and a dispatcher, as in bxCAN examples. */
#include "FreeRTOS.h"
#include "queue.h"
#include "task.h"
#include "stm32f4xx_hal.h"

#define CAN_RX_QUEUE_LEN 8
#define ID_SPEED   0x100
#define ID_TORQUE  0x101
#define ID_STOP    0x7FF

typedef struct {
    uint32_t id;
    uint8_t  dlc;
    uint8_t  data[8];
} can_msg_t;

extern CAN_HandleTypeDef hcan1;
static QueueHandle_t can_rx_queue;
static volatile uint32_t can_rx_overruns;
static uint32_t speed, torque, stops;

void CAN1_RX0_IRQHandler(void)
{
    BaseType_t woken = pdFALSE;
    CAN_RxHeaderTypeDef header;
    can_msg_t msg;

    while (HAL_CAN_GetRxFifoFillLevel(&hcan1, CAN_RX_FIFO0) > 0) { /* rtosim: turns 2 */
        HAL_CAN_GetRxMessage(&hcan1, CAN_RX_FIFO0, &header, msg.data);
#ifdef RTOSIM
        msg.id = ID_STOP;
#else
        msg.id = header.StdId;
#endif
        msg.dlc = header.DLC;
        if (xQueueSendFromISR(can_rx_queue, &msg, &woken) != pdTRUE) {
            can_rx_overruns++;
        }
    }
    portYIELD_FROM_ISR(woken);
}

static void can_dispatch(const can_msg_t *msg)
{
    switch (msg->id) {
    case ID_SPEED:
        speed = msg->data[0] | (msg->data[1] << 8);
        break;
    case ID_TORQUE:
        torque = msg->data[0];
        break;
    case ID_STOP:
        stops++;
        motor_stop();
        break;
    default:
        break;
    }
}

void can_task(void *argument)
{
    can_msg_t msg;

    HAL_CAN_Start(&hcan1);
    HAL_CAN_ActivateNotification(&hcan1, CAN_IT_RX_FIFO0_MSG_PENDING);
    for (;;) {
        if (xQueueReceive(can_rx_queue, &msg, pdMS_TO_TICKS(100)) == pdTRUE) {
            can_dispatch(&msg);
        } else {
            motor_stop();
        }
    }
}

#ifdef RTOSIM
static void check(void *argument)
{
    rtosim_work(20);
    configASSERT(can_rx_overruns == 0 && uxQueueMessagesWaiting(can_rx_queue) == 0);
}
#endif

int main(void)
{
    HAL_Init();
    SystemClock_Config();
    can_rx_queue = xQueueCreate(CAN_RX_QUEUE_LEN, sizeof(can_msg_t));
    configASSERT(can_rx_queue != NULL);
    xTaskCreate(can_task, "CAN", 256, NULL, configMAX_PRIORITIES - 2, NULL);
#ifdef RTOSIM
    xTaskCreate(check, "check", 256, NULL, 1, NULL);
#endif
    vTaskStartScheduler();
    for (;;) {
    }
}
