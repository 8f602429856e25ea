/* The configuration of engine.oil for host/osek.c. */
#define TASKS 4
#define ALARMS 3
#define TOP 4
static struct task tasks[] = {
  { os_task_Crank, 4, 1, 0 },
  { os_task_Air, 3, 1, 0 },
  { os_task_Spark, 2, 1, 0 },
  { os_task_Adapt, 1, 1, 0 },
};
static int ceilings[33] = { 4, [32] = 4 };
static struct counter counters[2] = {
  { 9999, 1 },
};
static struct alarm alarms[32] = {
  { 0, 1, 0, 5, 5 },
  { 0, 2, 0, 10, 10 },
  { 0, 3, 0, 10, 100 },
};
const TaskType Crank = 0;
const TaskType Air = 1;
const TaskType Spark = 2;
const TaskType Adapt = 3;
const ResourceType Times = 0;
const AlarmType Each5 = 0;
const AlarmType Each10 = 1;
const AlarmType Each100 = 2;
const ResourceType RES_SCHEDULER = 32;
#define Milli 100
