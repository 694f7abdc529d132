// SPDX-License-Identifier: GPL-2.0 OR MIT
/* The device of one script: its header makes it, and the next script or the end of all ends it. */
#include <linux/bitops.h>
#include <linux/slab.h>
#include "twin.h"

/* Jiffies: the kernel's own timeout, which is never reached. */
#define LONG_AGO (1L << 26)

struct twin *twin;

static const char *const ring_names[MAX_RINGS] = { "ring 0", "ring 1", "ring 2", "ring 3",
						   "ring 4", "ring 5", "ring 6", "ring 7" };

static void add_buffer(struct words *line, bool is_zero)
{
	struct buffer *buffer = &twin->buffer[twin->buffers++];
	u32 i;

	buffer->size = is_zero ? take_number_word(line) : (line->end - line->at) / 2;
	buffer->bytes = kvzalloc(buffer->size, GFP_KERNEL | __GFP_NOFAIL);
	for (i = 0; !is_zero && i < buffer->size; i++)
		buffer->bytes[i] = hex_byte(line->at + 2 * i);
	dma_resv_init(&buffer->resv);
}

static void add_ring(struct words *line)
{
	struct ring *ring = &twin->ring[twin->rings];
	u32 limit = take_number_word(line);
	u32 timeout = take_number_word(line);
	u32 hangs = take_number_word(line);
	const struct drm_sched_init_args args = {
		.ops = &ring_ops,
		.submit_wq = submit_queue[twin->rings],
		.timeout_wq = timeout_queue[twin->rings],
		.num_rqs = DRM_SCHED_PRIORITY_COUNT,
		.credit_limit = limit,
		.hang_limit = hangs,
		.timeout = LONG_AGO,
		.name = ring_names[twin->rings],
		.dev = twin_device,
	};

	must(drm_sched_init(&ring->sched, &args), "sched_init");
	WRITE_ONCE(ring->sched.pause_submit, !options.free_running);
	INIT_LIST_HEAD(&ring->taken);
	ring->timeout = timeout;
	ring->hardware_context = dma_fence_context_alloc(1);
	twin->rings++;
}

static u32 priority_of(struct words *word)
{
	if (is_word(word, "kernel"))
		return DRM_SCHED_PRIORITY_KERNEL;
	if (is_word(word, "high"))
		return DRM_SCHED_PRIORITY_HIGH;
	if (is_word(word, "normal"))
		return DRM_SCHED_PRIORITY_NORMAL;
	return DRM_SCHED_PRIORITY_LOW;
}

static void add_entity(struct words *line)
{
	struct entity *entity = &twin->entity[twin->entities++];
	struct words list;

	take_word(line, &list);
	while (list.at < list.end)
		entity->list[entity->rings++] = &twin->ring[take_number(&list)].sched;
	entity->priority = priority_of(line);
	must(drm_sched_entity_init(&entity->base, entity->priority, entity->list, entity->rings,
				   &entity->guilty),
	     "entity_init");
}

static void open_device(void)
{
	twin = kvzalloc(sizeof(*twin), GFP_KERNEL | __GFP_NOFAIL);
	INIT_LIST_HEAD(&twin->all);
	twin->stamps = atomic_long_read(&reservation_ww_class.stamp);
}

/* Tells what became of the jobs and the buffers. */
static void put_journal(void)
{
	u32 i;

	for (i = 0; i < twin->jobs; i++)
		put("journal %u %d\n", twin->job[i]->ran,
		    dma_fence_get_status(twin->job[i]->finished));
	for (i = 0; i < twin->buffers; i++) {
		put("journal ");
		put_bytes(&twin->buffer[i]);
	}
}

static void end_contexts(void)
{
	u32 i;

	for (i = 0; i < MAX_CONTEXTS; i++)
		stop_waiting(&twin->context[i]);
	for (i = 0; i < MAX_CONTEXTS; i++) {
		struct context *own = &twin->context[i];

		while (own->begun && own->held)
			unlock(own, __ffs64(own->held));
		if (own->begun)
			end_unheld(own);
		if (own->task)
			context_do(own, DO_EXIT, NULL, NULL);
	}
}

static void end_rings(void)
{
	struct job *job;
	u32 i;

	for (i = 0; i < twin->entities; i++)
		if (!twin->entity[i].cancelled || options.push_killed)
			drm_sched_entity_fini(&twin->entity[i].base);
	for (i = 0; i < twin->rings; i++)
		while ((job = ring_head(&twin->ring[i]))) {
			if (job->hardware)
				dma_fence_signal(job->hardware);
			let_run(&twin->ring[i], &twin->ring[i].sched.work_free_job);
			settle();
		}
	settle();
	for (i = 0; i < twin->rings; i++) {
		drm_sched_fini(&twin->ring[i].sched);
		flush_workqueue(submit_queue[i]);
		flush_workqueue(timeout_queue[i]);
	}
}

static void free_memory(void)
{
	struct job *job, *next;
	u32 i;

	list_for_each_entry_safe(job, next, &twin->all, all) {
		if (job->armed && !job->freed)
			pr_err("twin: job %u was not freed\n", job->number);
		forget_job(job);
		dma_fence_put(job->finished);
		dma_fence_put(job->hardware);
		kvfree(job->packet);
		kvfree(job);
	}
	for (i = 0; i < twin->buffers; i++) {
		dma_resv_fini(&twin->buffer[i].resv);
		kvfree(twin->buffer[i].bytes);
	}
	kvfree(twin->job);
	kvfree(twin);
	twin = NULL;
}

/* Ends all that is left, and takes the device down. */
void close_device(void)
{
	put_journal();
	end_contexts();
	end_rings();
	free_memory();
	put_log();
}

/* A line "@ NAME" is written before its script is read: it stands, should the script end the kernel. */
static void next_script(struct words *line)
{
	if (twin)
		close_device();
	put("%.*s\n", (int)(line->end - line->at), line->at);
	put_flush();
	clear_log();
	open_device();
}

void twin_line(struct words line)
{
	struct words all = line, name;

	if (begins_with(&line, "@ ")) {
		next_script(&line);
		return;
	}
	take_word(&line, &name);
	if (is_word(&name, "buffer")) {
		add_buffer(&line, false);
	} else if (is_word(&name, "zero")) {
		add_buffer(&line, true);
	} else if (is_word(&name, "ring")) {
		add_ring(&line);
	} else if (is_word(&name, "entity")) {
		add_entity(&line);
	} else if (is_word(&name, "jobs")) {
		twin->most_jobs = take_number(&line);
		twin->job = kvcalloc(twin->most_jobs, sizeof(*twin->job), GFP_KERNEL | __GFP_NOFAIL);
	} else if (!is_word(&name, "go")) {
		command(&all);
	}
}
