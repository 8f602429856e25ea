/* The configuration of debounce.oil for host/osek.c. */
#define TASKS 3
#define ALARMS 2
#define TOP 3
static struct task tasks[] = {
  { os_task_Sample, 2, 1, 0 },
  { os_task_Act, 3, 1, 0 },
  { os_task_Report, 1, 0, 0 },
};
static int ceilings[33] = { [32] = 3 };
static struct counter counters[2] = {
  { 99, 1 },
};
static struct alarm alarms[32] = {
  { 0, 2, 0, 0, 0 },
  { 0, 0, 0, 1, 2 },
};
const TaskType Sample = 0;
const TaskType Act = 1;
const TaskType Report = 2;
const AlarmType Hold = 0;
const AlarmType Two = 1;
const ResourceType RES_SCHEDULER = 32;
#define Milli 100
