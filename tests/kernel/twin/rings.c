// SPDX-License-Identifier: GPL-2.0 OR MIT
/*
 * Rings: the driver's side of drm_sched (run_job, free_job, timedout_job), the simulated hardware,
 * and how a command lets the kernel's works run for one pick, one finish or one timeout.
 */
#include <linux/jiffies.h>
#include <linux/sched.h>
#include <linux/slab.h>
#include <linux/string.h>
#include <drm/spsc_queue.h>
#include "twin.h"

/* Jiffies: a timer that an event has left alone expires after this; the kernel's own sooner. */
#define MARK (1L << 28)

enum { COMPLETE = 1, RESUMED, GUILTY };

/* The hardware fence of a job. */

struct hardware_fence { struct dma_fence base; spinlock_t lock; };

static const char *hardware_name(struct dma_fence *fence)
{
	return "twin";
}

static const struct dma_fence_ops hardware_ops = {
	.get_driver_name = hardware_name,
	.get_timeline_name = hardware_name,
};

static struct dma_fence *make_hardware_fence(struct ring *ring)
{
	struct hardware_fence *fence = kzalloc(sizeof(*fence), GFP_KERNEL | __GFP_NOFAIL);

	spin_lock_init(&fence->lock);
	dma_fence_init(&fence->base, &hardware_ops, &fence->lock, ring->hardware_context,
		       ++ring->hardware_number);
	return &fence->base;
}

/* The driver's calls. */

static bool is_complete(struct job *job)
{
	return job->skipped || job->ran == job->packets;
}

static bool is_to_fail(struct job *job)
{
	return options.fail_stall && job->packets && job->packet[0].kind == STALL &&
	       job->packet[0].length == 65535;
}

static struct dma_fence *run_job(struct drm_sched_job *base)
{
	struct job *job = container_of(base, struct job, base);
	struct ring *ring = container_of(base->sched, struct ring, sched);

	job->skipped = base->s_fence->finished.error != 0;
	if (!ring->resubmitting) {
		/* A pick is one job. */
		if (!options.free_running)
			WRITE_ONCE(ring->sched.pause_submit, true);
		ring->picked = job;
		twin->taken++;
		list_add_tail(&job->taken, &ring->taken);
		job->taken_skip = job->skipped;
	} else if (options.rerun) {
		job->ran = 0;
	}
	job->picked = true;
	dma_fence_put(job->hardware);
	job->hardware = NULL;
	if (job->skipped && options.null_skip)
		return NULL;
	if (is_to_fail(job)) {
		job->skipped = true;
		return ERR_PTR(-ENOMEM);
	}
	job->hardware = make_hardware_fence(ring);
	return dma_fence_get(job->hardware);
}

static void free_job(struct drm_sched_job *base)
{
	struct job *job = container_of(base, struct job, base);

	/* A finish is one job. One that was killed is freed by a work of its own, at any time. */
	if (job->picked && !options.free_running)
		WRITE_ONCE(base->sched->pause_submit, true);
	drm_sched_job_cleanup(base);
	job->freed = true;
	twin->freed++;
}

/* A work that keeps the works behind it waiting. */
struct blocker { struct work_struct work; struct completion *gate; };

static void block(struct work_struct *work)
{
	wait_for_completion(container_of(work, struct blocker, work)->gate);
}

/* drm_sched_start lets the ring pick at once. The script says when it picks, so it is kept from that. */
static void start_without_pick(struct drm_gpu_scheduler *sched)
{
	DECLARE_COMPLETION_ONSTACK(gate);
	struct blocker blocker = { .gate = &gate };

	INIT_WORK_ONSTACK(&blocker.work, block);
	queue_work(sched->submit_wq, &blocker.work);
	drm_sched_start(sched);
	drm_sched_wqueue_stop(sched);
	complete(&gate);
	flush_work(&blocker.work);
	destroy_work_on_stack(&blocker.work);
}

/* A timeout of a job that has nothing left to run puts it back, as etnaviv and v3d do. */
static void put_back(struct drm_gpu_scheduler *sched, struct drm_sched_job *base)
{
	spin_lock(&sched->job_list_lock);
	list_add(&base->list, &sched->pending_list);
	spin_unlock(&sched->job_list_lock);
}

static enum drm_gpu_sched_stat timedout_job(struct drm_sched_job *base)
{
	struct job *job = container_of(base, struct job, base);
	struct ring *ring = container_of(base->sched, struct ring, sched);
	struct drm_gpu_scheduler *sched = &ring->sched;

	if (is_complete(job)) {
		put_back(sched, base);
		ring->verdict = COMPLETE;
		return DRM_GPU_SCHED_STAT_NOMINAL;
	}
	drm_sched_stop(sched, base);
	drm_sched_increase_karma(base);
	job->resets++;
	if (!options.no_resubmit) {
		ring->resubmitting = true;
		drm_sched_resubmit_jobs(sched);
		ring->resubmitting = false;
	}
	ring->verdict = job->skipped ? GUILTY : RESUMED;
	if (options.free_running)
		drm_sched_start(sched);
	else
		start_without_pick(sched);
	return DRM_GPU_SCHED_STAT_NOMINAL;
}

const struct drm_sched_backend_ops ring_ops = {
	.run_job = run_job,
	.timedout_job = timedout_job,
	.free_job = free_job,
};

/* How the kernel's works get to run. */

/* Lets the works of killed jobs run until nothing changes. */
void settle(void)
{
	u32 before;

	do {
		before = twin->freed;
		/* schedule_work uses this queue. */
		__flush_workqueue(system_percpu_wq);
	} while (twin->freed != before);
}

/* Where rings pick as they like: lets all that runs by itself run until nothing changes. */
void quiesce(void)
{
	u32 before, i;

	if (!options.free_running)
		return;
	do {
		before = twin->freed + twin->taken;
		for (i = 0; i < twin->rings; i++) {
			struct drm_gpu_scheduler *sched = &twin->ring[i].sched;

			do
				flush_workqueue(submit_queue[i]);
			while (work_pending(&sched->work_run_job) ||
			       work_pending(&sched->work_free_job));
		}
		settle();
	} while (before != twin->freed + twin->taken);
}

void let_run(struct ring *ring, struct work_struct *work)
{
	if (options.free_running) {
		quiesce();
		return;
	}
	WRITE_ONCE(ring->sched.pause_submit, false);
	queue_work(ring->sched.submit_wq, work);
	do
		flush_work(work);
	while (work_pending(work));
	WRITE_ONCE(ring->sched.pause_submit, true);
}

/* Before an event: puts the expiry of a ring's timer where an arming by the event will show. */
static void before_event(struct ring *ring)
{
	if (ring->timer)
		mod_delayed_work(ring->sched.timeout_wq, &ring->sched.work_tdr, MARK);
}

/* After it: where the timer was armed, its age counts from the event's moment. */
static void after_event(struct ring *ring, u64 now)
{
	struct delayed_work *work = &ring->sched.work_tdr;
	bool pending = delayed_work_pending(work);

	if (pending && work->timer.expires - jiffies < MARK / 2)
		ring->since = now;
	ring->timer = pending;
}

/* Commands. */

struct job *ring_head(struct ring *ring)
{
	struct drm_sched_job *base = list_first_entry_or_null(&ring->sched.pending_list,
							      struct drm_sched_job, list);

	return base ? container_of(base, struct job, base) : NULL;
}

static struct drm_sched_job *queue_head(struct drm_sched_entity *entity)
{
	struct spsc_node *node = spsc_queue_peek(&entity->job_queue);

	return node ? container_of(node, struct drm_sched_job, queue_node) : NULL;
}

/* Nothing was picked: tells of the ready head that does not fit, by the kernel's tables. */
static void tell_no_pick(struct ring *ring)
{
	struct drm_gpu_scheduler *sched = &ring->sched;
	int i;

	for (i = DRM_SCHED_PRIORITY_KERNEL; i < sched->num_rqs; i++) {
		struct rb_node *node = rb_first_cached(&sched->sched_rq[i]->rb_tree_root);

		for (; node; node = rb_next(node)) {
			struct drm_sched_entity *entity =
				rb_entry(node, struct drm_sched_entity, rb_tree_node);
			struct drm_sched_job *base = queue_head(entity);

			if (base && !READ_ONCE(entity->dependency)) {
				put("refused 41 %u %u\n", base->credits, sched->credit_limit -
				    atomic_read(&sched->credit_count));
				return;
			}
		}
	}
	refused(40);
}

/* Jobs that run_job has ended leave the ring as they come to its head. */
static void free_ended(struct ring *ring, u64 now)
{
	bool may_end = options.null_skip || options.no_resubmit || options.fail_stall;
	struct job *job;

	while (may_end && (job = ring_head(ring)) && dma_fence_get_status(job->finished)) {
		before_event(ring);
		let_run(ring, &ring->sched.work_free_job);
		after_event(ring, now);
	}
	settle();
}

/* Where rings pick as they like: tells of the next job that the ring has taken. */
static void tell_taken(struct ring *ring)
{
	struct job *job = list_first_entry_or_null(&ring->taken, struct job, taken);

	if (!job) {
		tell_no_pick(ring);
		return;
	}
	list_del(&job->taken);
	put("picked %u %s\n", job->number, job->taken_skip ? "skip" : "run");
}

void pick(struct ring *ring, u64 now)
{
	if (options.free_running) {
		tell_taken(ring);
		return;
	}
	ring->picked = NULL;
	before_event(ring);
	let_run(ring, &ring->sched.work_run_job);
	after_event(ring, now);
	if (ring->picked)
		put("picked %u %s\n", ring->picked->number,
		    ring->picked->skipped ? "skip" : "run");
	else
		tell_no_pick(ring);
	free_ended(ring, now);
}

static void run_packet(struct packet *packet)
{
	u8 *target = twin->buffer[packet->target].bytes + packet->target_at;
	u8 *source = twin->buffer[packet->source].bytes + packet->source_at;
	u8 *copy;
	u32 i;

	switch (packet->kind) {
	case FILL:
		memset(target, packet->byte, packet->length);
		break;
	case COPY:
		memmove(target, source, packet->length);
		break;
	case ADD:
		copy = kmemdup(source, packet->length, GFP_KERNEL | __GFP_NOFAIL);
		for (i = 0; i < packet->length; i++)
			target[i] += copy[i];
		kfree(copy);
		break;
	}
}

/* Runs a packet of the first pending job that is not complete. */
void step(struct ring *ring)
{
	struct drm_sched_job *base;

	list_for_each_entry(base, &ring->sched.pending_list, list) {
		struct job *job = container_of(base, struct job, base);
		struct packet *packet = &job->packet[job->ran];

		if (is_complete(job))
			continue;
		if (packet->kind == STALL && job->resets < packet->length) {
			put("stalled %u\n", job->number);
			return;
		}
		run_packet(packet);
		put("ran %u %u\n", job->number, job->ran++);
		return;
	}
	refused(40);
}

void finish(struct ring *ring, u64 now)
{
	struct job *job = ring_head(ring);

	if (!job) {
		refused(40);
		return;
	}
	if (!is_complete(job)) {
		refused(42);
		return;
	}
	before_event(ring);
	if (job->hardware)
		dma_fence_signal(job->hardware);
	put("finished %u %d\n", job->number, dma_fence_get_status(job->finished));
	let_run(ring, &ring->sched.work_free_job);
	after_event(ring, now);
	free_ended(ring, now);
}

static void tell_verdict(struct ring *ring, u32 entity)
{
	switch (ring->verdict) {
	case COMPLETE:
		put("complete\n");
		break;
	case RESUMED:
		put("resumed\n");
		break;
	case GUILTY:
		put("guilty %u\n", entity);
		break;
	default:
		put("no verdict\n");
	}
}

/* Fires the ring's timer where its age, by the script's moments, has come to the ring's timeout. */
void time_out(struct ring *ring, u64 now)
{
	struct job *job = ring_head(ring);
	u64 age = now > ring->since ? now - ring->since : 0;
	u32 entity;

	if (!job) {
		put("empty\n");
		return;
	}
	if (options.free_running) {
		age = ring->timeout;
	} else if (!ring->timer) {
		put("unarmed\n");
		return;
	}
	if (age < ring->timeout) {
		put("notyet %llu\n", ring->timeout - age);
		return;
	}
	entity = job->entity;
	ring->verdict = 0;
	mod_delayed_work(ring->sched.timeout_wq, &ring->sched.work_tdr, 0);
	flush_delayed_work(&ring->sched.work_tdr);
	after_event(ring, now);
	tell_verdict(ring, entity);
	free_ended(ring, now);
}
