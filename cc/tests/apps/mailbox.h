/* The configuration of mailbox.oil for host/osek.c. */
#define TASKS 3
#define ALARMS 2
#define TOP 3
static struct task tasks[] = {
  { os_task_Post, 3, 1, 0 },
  { os_task_Reader, 2, 1, 1 },
  { os_task_Clerk, 1, 0, 0 },
};
static int ceilings[33] = { 3, [32] = 3 };
static struct counter counters[2] = {
  { 999, 2 },
};
static struct alarm alarms[32] = {
  { 0, 1, 16, 0, 0 },
  { 0, 0, 0, 3, 11 },
};
const TaskType Post = 0;
const TaskType Reader = 1;
const TaskType Clerk = 2;
const ResourceType Box = 0;
const AlarmType Timeout = 0;
const AlarmType Each = 1;
const ResourceType RES_SCHEDULER = 32;
const EventMaskType Mail = 1u;
const EventMaskType Late = 16u;
#define Milli 100
