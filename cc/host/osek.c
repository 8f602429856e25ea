/* OSEK for task code in C on a host, for tests: one thread, a context for each task, and the next arrival whenever all is idle. It stands after
   the task code in one file; tables.h has the configuration and arrivals: tasks by number, counters from 100 on. */
#include <stdio.h>
#include <ucontext.h>

enum state { IS_RUNNING, IS_WAITING, IS_READY, IS_SUSPENDED };
struct task {
  void (*body)(void);
  int priority, is_full, starts;
  enum state state;
  int is_new, current, held, saved[33];
  unsigned events, wanted;
  ucontext_t context;
  char stack[65536];
};
struct alarm { int counter, task; unsigned event, left, cycle; };
struct counter { unsigned greatest, least_cycle, value; };
#include "tables.h"

static ucontext_t scheduler;
static struct task *self;

static void give_way(void) { swapcontext(&self->context, &scheduler); }

/* The task that runs next: of one priority that which has begun. */
static struct task *next_task(void)
{
  struct task *best = 0;
  int most = -1;
  for (struct task *t = tasks; t < tasks + TASKS; t++) {
    int rank = t->state == IS_READY ? 2 * t->priority : t->state == IS_RUNNING ? 2 * t->current + 1 : -1;
    if (rank > most) { most = rank; best = t; }
  }
  return best;
}

static void run_all(void)
{
  while ((self = next_task())) {
    if (self->state == IS_READY) {
      self->state = IS_RUNNING;
      self->current = self->is_full ? self->priority : TOP;
      if (self->is_new) {
        self->is_new = self->held = 0;
        getcontext(&self->context);
        self->context.uc_stack.ss_sp = self->stack;
        self->context.uc_stack.ss_size = sizeof self->stack;
        makecontext(&self->context, self->body, 0);
      }
    }
    swapcontext(&scheduler, &self->context);
  }
}

static StatusType activate(struct task *t)
{
  if (t->state != IS_SUSPENDED) return E_OS_LIMIT;
  t->state = IS_READY; t->is_new = 1; t->events = 0;
  return E_OK;
}

static StatusType set_events(struct task *t, unsigned events)
{
  if (t->state == IS_SUSPENDED) return E_OS_STATE;
  t->events |= events;
  if (t->state == IS_WAITING && t->wanted & t->events) t->state = IS_READY;
  return E_OK;
}

static void tick(int number)
{
  struct counter *c = counters + number;
  c->value = c->value == c->greatest ? 0 : c->value + 1;
  for (struct alarm *a = alarms; a < alarms + ALARMS; a++)
    if (a->counter == number && a->left && !--a->left) {
      a->left = a->cycle;
      if (a->event) set_events(tasks + a->task, a->event); else activate(tasks + a->task);
    }
}

StatusType ActivateTask(TaskType t) { StatusType s = activate(tasks + t); give_way(); return s; }
void TerminateTask(void) { self->state = IS_SUSPENDED; setcontext(&scheduler); __builtin_unreachable(); }
StatusType ChainTask(TaskType t)
{
  if (tasks + t != self && tasks[t].state != IS_SUSPENDED) return E_OS_LIMIT;
  self->state = IS_SUSPENDED;
  activate(tasks + t);
  setcontext(&scheduler);
  return E_OK;
}
StatusType Schedule(void) { int level = self->current; self->current = self->priority; give_way(); self->current = level; return E_OK; }
StatusType GetTaskID(TaskRefType t) { *t = self - tasks; return E_OK; }
StatusType GetTaskState(TaskType t, TaskStateRefType s)
{
  *s = tasks + t == self ? RUNNING : tasks[t].state == IS_RUNNING ? READY : (TaskStateType)tasks[t].state;
  return E_OK;
}
StatusType GetResource(ResourceType r)
{
  self->saved[self->held++] = self->current;
  if (ceilings[r] > self->current) self->current = ceilings[r];
  return E_OK;
}
StatusType ReleaseResource(ResourceType r) { self->current = self->saved[--self->held]; give_way(); return E_OK; }
StatusType SetEvent(TaskType t, EventMaskType m) { StatusType s = set_events(tasks + t, m); give_way(); return s; }
StatusType ClearEvent(EventMaskType m) { self->events &= ~m; return E_OK; }
StatusType GetEvent(TaskType t, EventMaskRefType m) { if (tasks[t].state == IS_SUSPENDED) return E_OS_STATE; *m = tasks[t].events; return E_OK; }
StatusType WaitEvent(EventMaskType m)
{
  if (self->events & m) return E_OK;
  self->wanted = m; self->state = IS_WAITING;
  give_way();
  return E_OK;
}
static StatusType start(struct alarm *a, int is_wrong, unsigned left, unsigned cycle)
{
  struct counter *c = counters + a->counter;
  if (a->left) return E_OS_STATE;
  if (is_wrong || cycle && (cycle < c->least_cycle || cycle > c->greatest)) return E_OS_VALUE;
  a->left = left; a->cycle = cycle;
  return E_OK;
}
StatusType SetRelAlarm(AlarmType a, TickType n, TickType cycle)
{
  return start(alarms + a, n == 0 || n > counters[alarms[a].counter].greatest, n, cycle);
}
StatusType SetAbsAlarm(AlarmType a, TickType at, TickType cycle)
{
  struct counter *c = counters + alarms[a].counter;
  return start(alarms + a, at > c->greatest, at > c->value ? at - c->value : c->greatest + 1 - c->value + at, cycle);
}
StatusType CancelAlarm(AlarmType a) { if (!alarms[a].left) return E_OS_NOFUNC; alarms[a].left = 0; return E_OK; }
StatusType GetAlarm(AlarmType a, TickRefType n) { if (!alarms[a].left) return E_OS_NOFUNC; *n = alarms[a].left; return E_OK; }

static void host_run(void)
{
  for (struct task *t = tasks; t < tasks + TASKS; t++) { t->state = IS_SUSPENDED; if (t->starts) activate(t); }
  run_all();
  for (unsigned k = 0; k < sizeof arrivals / sizeof *arrivals; k++) {
    if (arrivals[k] >= 100) tick(arrivals[k] - 100); else activate(tasks + arrivals[k]);
    run_all();
  }
}
