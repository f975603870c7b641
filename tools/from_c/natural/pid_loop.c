/* A PID controller in sixteenths, with a limited sum, on a simulated plant. */
#include "microsys.h"

struct pid {
    int32_t kp, ki, kd;
    int32_t sum, last;
    int32_t low, high;
};

static int32_t clamp(int32_t value, int32_t low, int32_t high) {
    return value < low ? low : value > high ? high : value;
}

static int32_t pid_step(struct pid *pid, int32_t wanted, int32_t seen) {
    int32_t error = wanted - seen;
    pid->sum = clamp(pid->sum + error, -1000, 1000);
    int32_t change = error - pid->last;
    pid->last = error;
    int32_t out = (pid->kp * error + pid->ki * pid->sum + pid->kd * change) / 16;
    return clamp(out, pid->low, pid->high);
}

THREAD main(void) {
    static struct pid pid = {.kp = 24, .ki = 3, .kd = 8, .low = 0, .high = 255};
    int32_t temperature = 20;
    for (;;) {
        sys_wait(CAP_BELL);
        for (int step = 0; step < 6; step++) {
            int32_t power = pid_step(&pid, 80, temperature);
            temperature += (power - temperature) / 8;
            sys_put_char(power);
            sys_put_char(temperature);
        }
        handler_ack(CAP_LINE);
    }
}
