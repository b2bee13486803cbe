"""Drivers as they are written for a board, with stubs of its headers: the applications that come of them, and what their campaigns find."""
import os
import re
from typing import Callable, Dict, List, Tuple

from cases import equal
from running import stored

HERE = os.path.dirname(os.path.realpath(__file__))
DRIVERS = f"{HERE}/drivers"
HAL = ["--ignore", "HAL_*=HAL_OK", "--fails", "Error_Handler"]
WORDS_OF_DRIVERS: Dict[str, List[str]] = {
    "uart_dma": ["--ignore", "*HAL_*=0", "--ignore", "Error_Handler", "--ignore", "rx_*", "--handler", "HAL_UARTEx_RxEventCallback"],
    "spi_bus": ["--ignore", "NVIC_*", "--ignore", "SystemInit"],
    "i2c_eeprom": ["--ignore", "I2C_*=4"],
    "spi_flash": ["--ignore", "HAL_*=HAL_OK", "--fails", "Error_Handler", "--handler", "HAL_SPI_TxRxCpltCallback"],
    "uart_tx": ["--handler", "HAL_UART_TxCpltCallback", "--handler", "HAL_UART_ErrorCallback"],
    "can_rx": ["--ignore", "HAL_*", "--ignore", "motor_stop", "--ignore", "SystemClock_Config"],
    "keypad": ["--ignore", "gpio_*=0", "--ignore", "esp_log_*", "--handler", "gpio_isr_handler(0)", "--handler", "gpio_isr_handler(1)"],
    "adc_dma": [*HAL, "--ignore", "SystemClock_Config", "--handler", "HAL_ADC_ConvHalfCpltCallback", "--handler", "HAL_ADC_ConvCpltCallback"],
    "rtc_alarm": HAL,
    "modbus_rtu": ["--ignore", "mb_port_init", "--ignore", "mb_crc16=0"],
    "nor_poll": [*HAL, "--ignore", "MX_*", "--ignore", "SystemClock_Config"],
    "encoder": [*HAL, "--ignore", "motor_stop"],
    "w25q": [*HAL, "--ignore", "MX_*", "--ignore", "SystemClock_Config", "--handler", "HAL_SPI_TxRxCpltCallback", "--handler", "HAL_SPI_ErrorCallback"],
    "rotary": [*HAL, "--handler", "HAL_GPIO_EXTI_Callback(6)"],
    "lora_modem": [],
}
# Those whose campaigns are stored, as `--only failing --heads` has them.
WITH_REPORTS = ("adc_dma", "encoder", "lora_modem", "modbus_rtu", "nor_poll", "rotary", "rtc_alarm", "w25q")
Run = Callable[..., Tuple[int, str, str]]


def words_of(name: str) -> List[str]:
    return ["-I", f"{DRIVERS}/board", *WORDS_OF_DRIVERS[name], f"{DRIVERS}/{name}.c"]


def without_warnings(err: str) -> List[str]:
    return re.findall("(?m)^(?!.*: warning: ).+$", err)


def check_applications(run: Run) -> None:
    """Each driver gives the application that is stored beside it."""
    equal(sorted(f"{it}.c" for it in WORDS_OF_DRIVERS), sorted(it for it in os.listdir(DRIVERS) if it.endswith(".c")))
    for name in WORDS_OF_DRIVERS:
        status, out, err = run(*words_of(name))
        equal((name, status, without_warnings(err)), (name, 0, []))
        equal(out.encode(), stored(f"tests/of_c/drivers/{name}.toml"))


def check_campaigns(run: Run, program: str) -> None:
    """The campaigns of some drivers find what is stored."""
    for name in WITH_REPORTS:
        wanted = stored(f"tests/of_c/drivers/{name}.report").decode()
        fails = re.match(r"total (\d+): pass \1,", wanted.splitlines()[-1]) is None
        status, out, err = run("--campaign", "--program", program, *words_of(name), "--only", "failing", "--heads")
        equal((name, status, without_warnings(err)), (name, int(fails), []))
        equal(out, wanted)
