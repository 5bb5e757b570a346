/* The services of the kernel, a function each; docs/formats.md says what they refuse and do. A call has the number of
   the service in a7 and its arguments from a0 on; the answer has a status in a0 and words in a1 to a4. */
#ifndef TM_H
#define TM_H

typedef unsigned int word;

enum status {
    E_OK = 0,
    E_OS_ACCESS = 1,
    E_OS_ID = 3,
    E_OS_LIMIT = 4,
    E_OS_NOFUNC = 5,
    E_OS_RESOURCE = 6,
    E_OS_STATE = 7,
    E_OS_VALUE = 8
};

enum task_state { SUSPENDED, READY, RUNNING, WAITING };

struct message {
    word words[4];
};

struct answer {
    enum status status;
    struct message message;
};

#ifdef __riscv
/* A call with one argument, or none. */
static inline struct answer tm_call(word service, word first)
{
    register word a0 __asm__("a0") = first;
    register word a1 __asm__("a1");
    register word a2 __asm__("a2");
    register word a3 __asm__("a3");
    register word a4 __asm__("a4");
    register word a7 __asm__("a7") = service;
    __asm__ volatile("ecall" : "+r"(a0), "=r"(a1), "=r"(a2), "=r"(a3), "=r"(a4) : "r"(a7) : "memory");
    return (struct answer){(enum status)a0, {{a1, a2, a3, a4}}};
}

/* A call with more arguments. */
static inline struct answer tm_call_with(word service, word first, word second, word third, word fourth, word fifth)
{
    register word a0 __asm__("a0") = first;
    register word a1 __asm__("a1") = second;
    register word a2 __asm__("a2") = third;
    register word a3 __asm__("a3") = fourth;
    register word a4 __asm__("a4") = fifth;
    register word a7 __asm__("a7") = service;
    __asm__ volatile("ecall" : "+r"(a0), "+r"(a1), "+r"(a2), "+r"(a3), "+r"(a4) : "r"(a7) : "memory");
    return (struct answer){(enum status)a0, {{a1, a2, a3, a4}}};
}
#else
/* Elsewhere a function of this name stands for the kernel: so a task can be tried where it is written. */
struct answer tm_call_with(word service, word first, word second, word third, word fourth, word fifth);

static inline struct answer tm_call(word service, word first)
{
    return tm_call_with(service, first, 0, 0, 0, 0);
}
#endif

/* A call whose answer has a word: the first. */
static inline enum status tm_get(word service, word first, word *into)
{
    struct answer answer = tm_call(service, first);
    *into = answer.message.words[0];
    return answer.status;
}

static inline enum status ActivateTask(word task) { return tm_call(1, task).status; }
/* This and the next come back only where they are refused. */
static inline enum status TerminateTask(void) { return tm_call(2, 0).status; }
static inline enum status ChainTask(word task) { return tm_call(3, task).status; }
static inline enum status GetTaskID(word *task) { return tm_get(4, 0, task); }
static inline enum status GetTaskState(word task, word *state) { return tm_get(5, task, state); }

static inline enum status GetResource(word resource) { return tm_call(6, resource).status; }
static inline enum status ReleaseResource(word resource) { return tm_call(7, resource).status; }

static inline enum status SetEvent(word task, word mask) { return tm_call_with(8, task, mask, 0, 0, 0).status; }
static inline enum status ClearEvent(word mask) { return tm_call(9, mask).status; }
static inline enum status GetEvent(word task, word *mask) { return tm_get(10, task, mask); }
static inline enum status WaitEvent(word mask) { return tm_call(11, mask).status; }

static inline enum status GetAlarm(word alarm, word *ticks) { return tm_get(12, alarm, ticks); }
static inline enum status SetRelAlarm(word alarm, word increment, word cycle)
{
    return tm_call_with(13, alarm, increment, cycle, 0, 0).status;
}
static inline enum status SetAbsAlarm(word alarm, word start, word cycle)
{
    return tm_call_with(14, alarm, start, cycle, 0, 0).status;
}
static inline enum status CancelAlarm(word alarm) { return tm_call(15, alarm).status; }

static inline enum status Send(word box, struct message message)
{
    const word *words = message.words;
    return tm_call_with(16, box, words[0], words[1], words[2], words[3]).status;
}
static inline enum status Receive(word box, struct message *message)
{
    struct answer answer = tm_call(17, box);
    *message = answer.message;
    return answer.status;
}

static inline enum status ReadInput(word port, word *value) { return tm_get(18, port, value); }
static inline enum status WriteOutput(word port, word value) { return tm_call_with(19, port, value, 0, 0, 0).status; }

static inline enum status ShutdownOS(word code) { return tm_call(20, code).status; }

#endif
