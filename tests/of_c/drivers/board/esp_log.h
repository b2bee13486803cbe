#define ESP_LOGI(tag, ...) esp_log_write(3, tag, __VA_ARGS__)
void esp_log_write(int level, const char *tag, const char *format, ...);
