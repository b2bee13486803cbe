"""Translates small drivers in C, written around calls of FreeRTOS, to application files for rtosim. It is tested and not proved."""
