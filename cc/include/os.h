/* OSEK OS 2.2.3 for task code in C: of the translator (__SLOTH__), and of a host's compiler with host/osek.c. */
#ifndef OS_H
#define OS_H

typedef unsigned int TaskType, TaskStateType, ResourceType, EventMaskType, AlarmType, TickType;
typedef TaskType *TaskRefType;
typedef TaskStateType *TaskStateRefType;
typedef EventMaskType *EventMaskRefType;
typedef TickType *TickRefType;
typedef unsigned char StatusType;

#define E_OK 0
#define E_OS_LIMIT 4
#define E_OS_NOFUNC 5
#define E_OS_STATE 7
#define E_OS_VALUE 8
#define RUNNING 0u
#define WAITING 1u
#define READY 2u
#define SUSPENDED 3u

/* The body of a task is a function of its own, so that the task's name is one of a constant. */
#define TASK(name) void os_task_##name(void)
#define DeclareTask(name) extern const TaskType name
#define DeclareResource(name) extern const ResourceType name
#define DeclareEvent(name) extern const EventMaskType name
#define DeclareAlarm(name) extern const AlarmType name
DeclareResource(RES_SCHEDULER);

/* In front of a loop: its body is begun so often at most. */
#define OS_PRAGMA(text) _Pragma(#text)
#define LOOP_BOUND(number) OS_PRAGMA(bound number)

#ifdef __SLOTH__
StatusType TerminateTask(void);
#else
void TerminateTask(void) __attribute__((noreturn));
#endif
StatusType ActivateTask(TaskType task);
StatusType ChainTask(TaskType task);
StatusType Schedule(void);
StatusType GetTaskID(TaskRefType task);
StatusType GetTaskState(TaskType task, TaskStateRefType state);
StatusType GetResource(ResourceType resource);
StatusType ReleaseResource(ResourceType resource);
StatusType SetEvent(TaskType task, EventMaskType events);
StatusType ClearEvent(EventMaskType events);
StatusType GetEvent(TaskType task, EventMaskRefType events);
StatusType WaitEvent(EventMaskType events);
StatusType GetAlarm(AlarmType alarm, TickRefType ticks);
StatusType SetRelAlarm(AlarmType alarm, TickType increment, TickType cycle);
StatusType SetAbsAlarm(AlarmType alarm, TickType start, TickType cycle);
StatusType CancelAlarm(AlarmType alarm);
#endif
