// SPDX-License-Identifier: GPL-2.0 OR MIT
/* The commands of a script: each has one line of answer. */
#include <linux/array_size.h>
#include "twin.h"

static struct context *context_of(struct words *line)
{
	return &twin->context[take_number_word(line)];
}

static struct ring *ring_of(struct words *line)
{
	return &twin->ring[take_number_word(line)];
}

static void do_begin(struct words *line)
{
	begin_context(context_of(line));
}

static void do_try(struct words *line)
{
	struct context *own = context_of(line);

	try_lock(own, take_number_word(line));
}

/* All else that a context does ends the wait in which a try has left it. */
static struct context *awake_context_of(struct words *line)
{
	struct context *own = context_of(line);

	stop_waiting(own);
	return own;
}

static void do_done(struct words *line)
{
	seal_context(awake_context_of(line));
}

static void do_drop(struct words *line)
{
	struct context *own = awake_context_of(line);

	drop(own, take_number_word(line));
}

static void do_end(struct words *line)
{
	end_context(awake_context_of(line));
}

static void do_plan(struct words *line)
{
	struct context *own = awake_context_of(line);

	plan(own, line);
}

static void do_arm(struct words *line)
{
	arm(awake_context_of(line));
}

static void do_read(struct words *line)
{
	struct context *own = awake_context_of(line);

	read_buffer(own, take_number_word(line));
}

static void do_pick(struct words *line)
{
	struct ring *ring = ring_of(line);

	pick(ring, take_number_word(line));
}

static void do_step(struct words *line)
{
	step(ring_of(line));
}

static void do_finish(struct words *line)
{
	struct ring *ring = ring_of(line);

	finish(ring, take_number_word(line));
}

static void do_timeout(struct words *line)
{
	struct ring *ring = ring_of(line);

	time_out(ring, take_number_word(line));
}

static void do_cancel(struct words *line)
{
	struct entity *entity = &twin->entity[take_number_word(line)];

	if (entity->cancelled) {
		refused(43);
		return;
	}
	entity->cancelled = true;
	/* The kernel's own name for it, drm_sched_entity_kill, is static. */
	drm_sched_entity_fini(&entity->base);
	settle();
	put("ok\n");
}

/* The kernel reaps by itself: this tells of the next killed job that has ended. */
static void do_reap(struct words *line)
{
	u32 i, number = take_number_word(line);

	for (i = 0; twin->entity[number].cancelled && i < twin->jobs; i++) {
		struct job *job = twin->job[i];

		if (job->entity != number || job->picked || job->reaped || job->stray)
			continue;
		if (dma_fence_get_status(job->finished) == 0) {
			refused(44);
			return;
		}
		job->reaped = true;
		put("reaped %u\n", job->number);
		return;
	}
	refused(45);
}

static void do_fence(struct words *line)
{
	u32 number = take_number_word(line);

	if (number >= twin->jobs)
		refused_of(20, number);
	else
		put("fence %d\n", dma_fence_get_status(twin->job[number]->finished));
}

static void do_dump(struct words *line)
{
	put_bytes(&twin->buffer[take_number_word(line)]);
}

static const struct {
	const char *name;
	void (*call)(struct words *line);
} commands[] = {
	{ "submit", submit },
	{ "begin", do_begin },
	{ "try", do_try },
	{ "done", do_done },
	{ "drop", do_drop },
	{ "end", do_end },
	{ "plan", do_plan },
	{ "arm", do_arm },
	{ "pick", do_pick },
	{ "step", do_step },
	{ "finish", do_finish },
	{ "timeout", do_timeout },
	{ "cancel", do_cancel },
	{ "reap", do_reap },
	{ "read", do_read },
	{ "fence", do_fence },
	{ "dump", do_dump },
};

void command(struct words *line)
{
	struct words name;
	u32 i;

	take_word(line, &name);
	for (i = 0; i < ARRAY_SIZE(commands); i++)
		if (is_word(&name, commands[i].name)) {
			commands[i].call(line);
			quiesce();
			return;
		}
	put("unknown\n");
}
