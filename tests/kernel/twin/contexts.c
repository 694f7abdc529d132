// SPDX-License-Identifier: GPL-2.0 OR MIT
/*
 * Contexts: each is a thread of its own that begins, locks, plans, arms, reads, unlocks and ends,
 * since ww_mutex knows its holder as a thread.
 */
#include <linux/completion.h>
#include <linux/kthread.h>
#include <linux/sched.h>
#include <linux/sched/signal.h>
#include "twin.h"

static void lock_own(struct context *own)
{
	WRITE_ONCE(own->in_lock, true);
	own->answer = dma_resv_lock_interruptible(own->resv, &own->ww);
	WRITE_ONCE(own->in_lock, false);
	flush_signals(current);
}

static void begin_own(struct context *own)
{
	ww_acquire_init(&own->ww, &reservation_ww_class);
#ifdef CONFIG_DEBUG_WW_MUTEX_SLOWPATH
	/* No -EDEADLK is put in for tests. */
	own->ww.deadlock_inject_countdown = UINT_MAX;
#endif
}

static int context_main(void *argument)
{
	struct context *own = argument;

	allow_signal(SIGINT);
	for (;;) {
		wait_for_completion(&own->go);
		own->answer = 0;
		switch (own->operation) {
		case DO_BEGIN:
			begin_own(own);
			break;
		case DO_LOCK:
			lock_own(own);
			break;
		case DO_UNLOCK:
			dma_resv_unlock(own->resv);
			break;
		case DO_DONE:
			ww_acquire_done(&own->ww);
			break;
		case DO_END:
			ww_acquire_fini(&own->ww);
			break;
		case DO_CALL:
			own->call(own, own->argument);
			break;
		case DO_EXIT:
			complete(&own->done);
			return 0;
		}
		complete(&own->done);
	}
}

static void start_context(struct context *own)
{
	init_completion(&own->go);
	init_completion(&own->done);
	own->task = kthread_run(context_main, own, "twin-context");
	if (IS_ERR(own->task))
		panic("twin: no thread");
	/* So a yield is the thread's turn until it sleeps. */
	sched_set_fifo(own->task);
}

/*
 * Runs an operation in the context's thread, and says whether it slept. It sleeps in a lock alone;
 * there it is interrupted, or left asleep, and the stamp of the holder is told.
 */
bool context_do(struct context *own, enum operation operation, struct dma_resv *resv,
		unsigned long *stamp)
{
	bool slept = false;

	if (!own->task)
		start_context(own);
	own->operation = operation;
	own->resv = resv;
	complete(&own->go);
	while (!try_wait_for_completion(&own->done)) {
		if (READ_ONCE(own->in_lock) && !slept &&
		    READ_ONCE(own->task->__state) == TASK_INTERRUPTIBLE) {
			slept = true;
			if (resv->lock.ctx)
				*stamp = resv->lock.ctx->stamp;
			if (options.wait)
				break;
			send_sig(SIGINT, own->task, 1);
		}
		yield();
	}
	return slept;
}

/* Runs a call in the thread that holds the context's locks. */
static void context_call(struct context *own, void (*call)(struct context *own, u32 number), u32 number)
{
	own->call = call;
	own->argument = number;
	context_do(own, DO_CALL, NULL, NULL);
}

/* Ends a wait that was left asleep. The context may have got its lock meanwhile. */
void stop_waiting(struct context *own)
{
	if (!own->waits)
		return;
	while (!try_wait_for_completion(&own->done)) {
		send_sig(SIGINT, own->task, 1);
		yield();
	}
	if (own->answer == 0)
		own->held |= 1ULL << (own->waits - 1);
	own->waits = 0;
}

void begin_context(struct context *own)
{
	if (own->begun && !options.misuse) {
		refused(50);
		return;
	}
	context_do(own, DO_BEGIN, NULL, NULL);
	own->begun = true;
	own->sealed = own->kernel_done = false;
	put("ticket %lu\n", own->ww.stamp - twin->stamps);
}

void seal_context(struct context *own)
{
	if (!own->begun) {
		refused(51);
	} else if (own->sealed && !options.misuse) {
		refused(55);
	} else {
		context_do(own, DO_DONE, NULL, NULL);
		own->sealed = own->kernel_done = true;
		put("ok\n");
	}
}

/* The ticket of the older one that the context backs off for: the holder, else the oldest that waits. */
static unsigned long ticket_of_older(struct context *own, u32 number)
{
	struct ww_acquire_ctx *holder = twin->buffer[number].resv.lock.ctx;
	unsigned long stamp = own->ww.stamp;
	int i;

	if (holder && holder->stamp < stamp)
		return holder->stamp - twin->stamps;
	for (i = 0; i < MAX_CONTEXTS; i++) {
		struct context *other = &twin->context[i];

		if (other->waits == number + 1 && !completion_done(&other->done) &&
		    other->ww.stamp < stamp)
			stamp = other->ww.stamp;
	}
	return stamp < own->ww.stamp ? stamp - twin->stamps : 0;
}

/* Tells of a context that sleeps, which it may behind an older holder with empty hands alone. */
static void tell_sleep(struct context *own, unsigned long stamp)
{
	if (stamp < own->ww.stamp)
		put("%s %lu\n", own->held ? "wrong-sleep" : "older", stamp - twin->stamps);
	else
		put("younger %lu\n", stamp - twin->stamps);
}

static void tell_lock(struct context *own, u32 number, bool slept, unsigned long stamp)
{
	if (own->answer == 0) {
		own->held |= 1ULL << number;
		put("held\n");
	} else if (own->answer == -EALREADY) {
		refused(114);
	} else if (own->answer == -EDEADLK) {
		put("%s %lu\n", own->held ? "older" : "wrong-older", ticket_of_older(own, number));
	} else if (own->answer == -EINTR && slept) {
		tell_sleep(own, stamp);
	} else {
		put("lock %d\n", own->answer);
	}
}

/* A context that was left asleep for the buffer: does it still sleep? */
static bool still_sleeps(struct context *own, u32 number)
{
	if (!try_wait_for_completion(&own->done)) {
		tell_sleep(own, twin->buffer[number].resv.lock.ctx->stamp);
		return true;
	}
	own->waits = 0;
	return false;
}

void try_lock(struct context *own, u32 number)
{
	unsigned long stamp = 0;
	bool slept = false;

	if (!own->begun) {
		refused(51);
		return;
	}
	if (own->waits == number + 1) {
		if (still_sleeps(own, number))
			return;
	} else {
		stop_waiting(own);
		if (own->sealed && !options.misuse) {
			refused(55);
			return;
		}
		slept = context_do(own, DO_LOCK, &twin->buffer[number].resv, &stamp);
		if (slept && options.wait) {
			own->waits = number + 1;
			tell_sleep(own, stamp);
			return;
		}
	}
	tell_lock(own, number, slept, stamp);
}

void unlock(struct context *own, u32 number)
{
	forget_job(own->plan);
	own->plan = NULL;
	context_do(own, DO_UNLOCK, &twin->buffer[number].resv, NULL);
	own->held &= ~(1ULL << number);
}

void drop(struct context *own, u32 number)
{
	if (!own->begun) {
		refused(51);
	} else if (!(own->held >> number & 1) && !options.misuse) {
		refused_of(52, number);
	} else {
		unlock(own, number);
		put("ok\n");
	}
}

/* Ends a context that holds nothing, and its plan of a job that declares nothing. */
void end_unheld(struct context *own)
{
	forget_job(own->plan);
	own->plan = NULL;
	context_do(own, DO_END, NULL, NULL);
	own->begun = false;
}

void end_context(struct context *own)
{
	if (!own->begun) {
		refused(51);
	} else if (own->held && !options.misuse) {
		refused_of(56, __ffs64(own->held));
	} else {
		end_unheld(own);
		put("ok\n");
	}
}

static void call_plan(struct context *own, u32 unused)
{
	plan_job(own->plan);
}

void plan(struct context *own, struct words *line)
{
	struct job *job = read_job(line);
	u32 i;

	if (!own->begun) {
		refused(51);
		return;
	}
	if (!check_job(job))
		return;
	for (i = 0; i < job->declarations; i++)
		if (!(own->held >> job->declared[i].buffer & 1) && !options.misuse) {
			refused(53);
			return;
		}
	forget_job(own->plan);
	own->plan = job;
	context_call(own, call_plan, 0);
	if (!own->kernel_done)
		context_do(own, DO_DONE, NULL, NULL);
	own->sealed = own->kernel_done = true;
	put("planned\n");
}

static void call_arm(struct context *own, u32 unused)
{
	arm_job(own->plan);
}

void arm(struct context *own)
{
	if (!own->begun) {
		refused(51);
	} else if (!own->plan) {
		refused(54);
	} else if (may_arm(own->plan)) {
		context_call(own, call_arm, 0);
		own->plan = NULL;
	}
}

/* Where a writer has not ended, the least of the writers' numbers is told. */
static void call_read(struct context *own, u32 number)
{
	struct buffer *buffer = &twin->buffer[number];
	struct dma_resv_iter cursor;
	struct dma_fence *fence;
	u32 i, least = U32_MAX;

	if (dma_resv_test_signaled(&buffer->resv, DMA_RESV_USAGE_WRITE)) {
		put_bytes(buffer);
		return;
	}
	dma_resv_for_each_fence(&cursor, &buffer->resv, DMA_RESV_USAGE_WRITE, fence) {
		if (dma_fence_is_signaled(fence))
			continue;
		for (i = 0; i < twin->jobs; i++)
			if (twin->job[i]->finished == fence && i < least)
				least = i;
	}
	refused_of(46, least);
}

void read_buffer(struct context *own, u32 number)
{
	if (!own->begun)
		refused(51);
	else if (!(own->held >> number & 1) && !options.misuse)
		refused_of(52, number);
	else
		context_call(own, call_read, number);
}
