/* SPDX-License-Identifier: GPL-2.0 OR MIT */
/*
 * The twin of drmsim: a driver that answers scripts of drmsim by the kernel's own drm_sched,
 * dma_resv, dma_fence and ww_mutex.
 *
 * It is built into a User Mode Linux kernel, which has no user space. At boot it reads the host
 * file twin_in=, which holds scripts, each behind a line "@ NAME". It answers each on a fresh
 * device, writes the answers to the host file twin_out= behind the same line, and halts.
 *
 * A ring is a drm_gpu_scheduler whose submit workqueue stands still (pause_submit) but in a pick,
 * where run_job stops it again behind one job, and in a finish, where free_job does. The hardware
 * fence of a job is signaled by the finish of the head. A context is a kthread. Moments are the
 * script's: the kernel's delayed work for timeouts is watched as it is armed and armed again, and
 * is fired when the script's moment says so.
 *
 * boot.c reads and writes files, text.c takes words and puts lines, logs.c reads trace events,
 * device.c makes and ends a device, commands.c calls for each command what jobs.c, rings.c and
 * contexts.c have.
 */
#ifndef DRMSIM_TWIN_H
#define DRMSIM_TWIN_H

#include <linux/completion.h>
#include <linux/dma-fence.h>
#include <linux/dma-resv.h>
#include <linux/list.h>
#include <linux/types.h>
#include <linux/workqueue.h>
#include <linux/ww_mutex.h>
#include <drm/gpu_scheduler.h>

/* The limits of a script's device, and those of a job that is read: more than is allowed. */
#define MAX_BUFFERS 64
#define MAX_RINGS 8
#define MAX_ENTITIES 64
#define MAX_CONTEXTS 64
#define CAP_WORDS 32
#define CAP_PACKETS 96

/* What a driver may do in another way, as the kernel's command line says. */
struct twin_options {
	bool null_skip;		/* run_job answers NULL for a job with an error */
	bool fail_stall;	/* run_job answers -ENOMEM for a job that begins with stall:65535 */
	bool rerun;		/* a resubmitted job runs from its first packet */
	bool no_resubmit;	/* a reset leaves it at drm_sched_stop and drm_sched_start */
	bool push_killed;	/* a stopped entity is given jobs */
	bool wait;		/* a try that sleeps goes on waiting behind its answer */
	bool free_running;	/* rings pick as they like; a pick tells of the next that was taken */
	bool misuse;		/* what misuses a lock is not refused */
	bool logs;		/* the trace events of each script are told */
};

enum access { READS = 'r', WRITES = 'w', HOLDS = 'h', MOVES = 'm' };
enum packet_kind { FILL, COPY, ADD, STALL };

struct packet { u8 kind; u8 byte; u32 source, source_at, target, target_at, length; };
struct declaration { u32 buffer; char access; };

struct job {
	struct drm_sched_job base;
	struct list_head all;		/* in twin->all, so that the end of the device finds it */
	struct list_head taken;		/* in its ring's list, until a pick has told it */
	bool taken_skip;
	u32 number, entity, credits;
	u32 declarations, afters, packets;
	struct declaration declared[CAP_WORDS];
	u32 after[CAP_WORDS];
	struct packet *packet;
	u32 ran, resets;
	bool inited, armed, picked, skipped, freed, reaped, stray;
	struct dma_fence *finished;	/* a reference of its own */
	struct dma_fence *hardware;
};

struct ring {
	struct drm_gpu_scheduler sched;
	u32 timeout;
	u64 since;			/* the script's moment at which the timer was armed */
	bool timer;			/* the timer is armed */
	struct list_head taken;		/* jobs that run_job was given and no pick has told */
	bool resubmitting;
	u64 hardware_context;
	u32 hardware_number;
	struct job *picked;
	int verdict;
};

struct entity {
	struct drm_sched_entity base;
	struct drm_gpu_scheduler *list[MAX_RINGS];
	u32 rings;
	u32 priority;
	atomic_t guilty;
	bool cancelled;
};

struct buffer { struct dma_resv resv; u8 *bytes; u32 size; };

enum operation { DO_BEGIN, DO_LOCK, DO_UNLOCK, DO_DONE, DO_END, DO_CALL, DO_EXIT };

struct context {
	struct task_struct *task;
	struct completion go, done;
	enum operation operation;
	struct dma_resv *resv;
	void (*call)(struct context *own, u32 argument);
	u32 argument;
	bool in_lock;
	int answer;
	struct ww_acquire_ctx ww;
	bool begun, sealed, kernel_done;
	int waits;			/* for this buffer and one more, or 0 */
	u64 held;
	struct job *plan;
};

struct twin {
	u32 buffers, rings, entities, most_jobs, jobs;
	struct buffer buffer[MAX_BUFFERS];
	struct ring ring[MAX_RINGS];
	struct entity entity[MAX_ENTITIES];
	struct context context[MAX_CONTEXTS];
	struct job **job;		/* by number */
	struct list_head all;
	u32 freed, taken;		/* how many jobs were, ever */
	unsigned long stamps;		/* tickets that were drawn before the script */
};

/* The words of a line, or one of them. */
struct words { const char *at, *end; };

extern struct twin *twin;
extern struct twin_options options;
extern struct workqueue_struct *submit_queue[MAX_RINGS], *timeout_queue[MAX_RINGS];
extern struct device *twin_device;

/* boot.c */
void write_out(const char *text, u32 length);

/* text.c */
void put_flush(void);
__printf(1, 2) void put(const char *format, ...);
void put_bytes(struct buffer *buffer);
bool refused(int number);
bool refused_of(int number, u32 what);
bool take_word(struct words *line, struct words *one);
u64 take_number(struct words *word);
u64 take_number_word(struct words *line);
u8 hex_byte(const char *at);
bool is_word(struct words *word, const char *text);
bool begins_with(struct words *word, const char *text);
void must(int answer, const char *what);

/* jobs.c */
struct job *read_job(struct words *line);
bool check_job(struct job *job);
void plan_job(struct job *job);
void forget_job(struct job *job);
bool may_arm(struct job *job);
void arm_job(struct job *job);
void submit(struct words *line);

/* rings.c */
extern const struct drm_sched_backend_ops ring_ops;
struct job *ring_head(struct ring *ring);
void let_run(struct ring *ring, struct work_struct *work);
void settle(void);
void quiesce(void);
void pick(struct ring *ring, u64 now);
void step(struct ring *ring);
void finish(struct ring *ring, u64 now);
void time_out(struct ring *ring, u64 now);

/* contexts.c */
bool context_do(struct context *own, enum operation operation, struct dma_resv *resv,
		unsigned long *stamp);
void stop_waiting(struct context *own);
void begin_context(struct context *own);
void seal_context(struct context *own);
void try_lock(struct context *own, u32 number);
void unlock(struct context *own, u32 number);
void drop(struct context *own, u32 number);
void end_context(struct context *own);
void end_unheld(struct context *own);
void plan(struct context *own, struct words *line);
void arm(struct context *own);
void read_buffer(struct context *own, u32 number);

/* logs.c */
void open_logs(void);
void clear_log(void);
void put_log(void);

/* commands.c */
void command(struct words *line);

/* device.c */
void twin_line(struct words line);
void close_device(void);

#endif
