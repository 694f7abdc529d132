// SPDX-License-Identifier: GPL-2.0 OR MIT
/*
 * Jobs: their text, the checks of a submission, which are a driver's and none of the kernel's, and
 * their way to the queue of their entity, which is the kernel's.
 */
#include <linux/slab.h>
#include "twin.h"

static void read_fill(struct packet *packet, struct words *word)
{
	word->at += strlen("fill:");
	packet->kind = FILL;
	packet->target = take_number(word);
	packet->target_at = take_number(word);
	packet->length = take_number(word);
	packet->byte = hex_byte(word->at);
}

static void read_two_sided(struct packet *packet, struct words *word, enum packet_kind kind)
{
	word->at += kind == COPY ? strlen("copy:") : strlen("add:");
	packet->kind = kind;
	packet->source = take_number(word);
	packet->source_at = take_number(word);
	packet->target = take_number(word);
	packet->target_at = take_number(word);
	packet->length = take_number(word);
}

static bool read_packet(struct packet *packet, struct words *word)
{
	if (begins_with(word, "fill:")) {
		read_fill(packet, word);
	} else if (begins_with(word, "copy:")) {
		read_two_sided(packet, word, COPY);
	} else if (begins_with(word, "add:")) {
		read_two_sided(packet, word, ADD);
	} else if (begins_with(word, "stall:")) {
		word->at += strlen("stall:");
		packet->kind = STALL;
		packet->length = take_number(word);
	} else {
		return false;
	}
	return true;
}

/* Counts each word of a job, and keeps as many as there is room for. */
static void read_word(struct job *job, struct words *word)
{
	struct packet packet = {};
	u32 number;
	char kind;

	if (read_packet(&packet, word)) {
		if (job->packets < CAP_PACKETS)
			job->packet[job->packets] = packet;
		job->packets++;
		return;
	}
	kind = *word->at++;
	number = take_number(word);
	if (kind == 'a') {
		if (job->afters < CAP_WORDS)
			job->after[job->afters] = number;
		job->afters++;
	} else {
		if (job->declarations < CAP_WORDS)
			job->declared[job->declarations] = (struct declaration){ number, kind };
		job->declarations++;
	}
}

struct job *read_job(struct words *line)
{
	struct job *job = kvzalloc(sizeof(*job), GFP_KERNEL | __GFP_NOFAIL);
	struct words one;

	job->packet = kvcalloc(CAP_PACKETS, sizeof(*job->packet), GFP_KERNEL | __GFP_NOFAIL);
	list_add_tail(&job->all, &twin->all);
	job->entity = take_number_word(line);
	job->credits = take_number_word(line);
	while (take_word(line, &one))
		read_word(job, &one);
	return job;
}

static char access_of(struct job *job, u32 buffer)
{
	u32 i;

	for (i = 0; i < job->declarations; i++)
		if (job->declared[i].buffer == buffer)
			return job->declared[i].access;
	return 0;
}

static bool fits(u32 buffer, u32 at, u32 length)
{
	return length > 0 && (u64)at + length <= twin->buffer[buffer].size;
}

static bool check_declarations(struct job *job)
{
	u32 i, k;

	for (i = 0; i < job->declarations; i++)
		if (job->declared[i].buffer >= twin->buffers)
			return refused_of(14, job->declared[i].buffer);
	for (i = 0; i < job->declarations; i++)
		for (k = 0; k < i; k++)
			if (job->declared[i].buffer == job->declared[k].buffer)
				return refused_of(15, job->declared[i].buffer);
	for (i = 0; i < job->declarations; i++)
		if (job->declared[i].access == MOVES &&
		    twin->entity[job->entity].priority != DRM_SCHED_PRIORITY_KERNEL)
			return refused_of(19, job->declared[i].buffer);
	return true;
}

static bool check_packet(struct job *job, u32 number)
{
	struct packet *packet = &job->packet[number];
	char source, target;

	if (packet->kind == STALL)
		return true;
	target = access_of(job, packet->target);
	source = packet->kind == FILL ? WRITES : access_of(job, packet->source);
	if (!target || !source)
		return refused_of(16, number);
	if (source == HOLDS || target == HOLDS)
		return refused_of(21, number);
	if (target == READS)
		return refused_of(17, number);
	if (!fits(packet->target, packet->target_at, packet->length) ||
	    (packet->kind != FILL && !fits(packet->source, packet->source_at, packet->length)))
		return refused_of(18, number);
	return true;
}

/* The driver's own checks, in the order in which scripts are refused. */
bool check_job(struct job *job)
{
	u32 i;

	if (job->entity >= twin->entities)
		return refused(10);
	if (!job->credits)
		return refused(11);
	if (job->declarations > 16)
		return refused_of(13, 0);
	if (job->afters > 16)
		return refused_of(13, 1);
	if (job->packets > 64)
		return refused_of(13, 2);
	if (!check_declarations(job))
		return false;
	for (i = 0; i < job->packets; i++)
		if (!check_packet(job, i))
			return false;
	return true;
}

static enum dma_resv_usage wanted_usage(char access)
{
	switch (access) {
	case READS: return dma_resv_usage_rw(false);
	case WRITES: return dma_resv_usage_rw(true);
	case HOLDS: return DMA_RESV_USAGE_KERNEL;
	default: return DMA_RESV_USAGE_BOOKKEEP;
	}
}

static enum dma_resv_usage added_usage(char access)
{
	switch (access) {
	case READS: return DMA_RESV_USAGE_READ;
	case WRITES: return DMA_RESV_USAGE_WRITE;
	case HOLDS: return DMA_RESV_USAGE_BOOKKEEP;
	default: return DMA_RESV_USAGE_KERNEL;
	}
}

/* Makes all calls up to the last one that may fail. The reservations are locked. */
void plan_job(struct job *job)
{
	struct drm_sched_entity *entity = &twin->entity[job->entity].base;
	u32 i;

	must(drm_sched_job_init(&job->base, entity, job->credits, NULL, 1), "job_init");
	job->inited = true;
	for (i = 0; i < job->declarations; i++) {
		struct declaration *declared = &job->declared[i];
		struct dma_resv *resv = &twin->buffer[declared->buffer].resv;

		must(drm_sched_job_add_resv_dependencies(&job->base, resv,
							 wanted_usage(declared->access)),
		     "add_resv_dependencies");
		must(dma_resv_reserve_fences(resv, 1), "reserve_fences");
	}
}

/* Gives up a job that was planned and not armed. */
void forget_job(struct job *job)
{
	if (job && job->inited && !job->armed) {
		drm_sched_job_cleanup(&job->base);
		job->inited = false;
	}
}

bool may_arm(struct job *job)
{
	u32 i;

	if (twin->entity[job->entity].cancelled && !options.push_killed)
		return refused(30);
	if (twin->jobs >= twin->most_jobs)
		return refused(31);
	for (i = 0; i < job->afters; i++)
		if (job->after[i] >= twin->jobs)
			return refused_of(20, job->after[i]);
	return true;
}

/* Gives the job its fence, adds that to the reservations, and pushes the job. */
void arm_job(struct job *job)
{
	u32 i;

	for (i = 0; i < job->afters; i++) {
		struct dma_fence *earlier = twin->job[job->after[i]]->finished;

		must(drm_sched_job_add_dependency(&job->base, dma_fence_get(earlier)),
		     "add_dependency");
	}
	drm_sched_job_arm(&job->base);
	job->armed = true;
	job->stray = twin->entity[job->entity].cancelled;
	job->number = twin->jobs;
	twin->job[twin->jobs++] = job;
	job->finished = dma_fence_get(&job->base.s_fence->finished);
	for (i = 0; i < job->declarations; i++)
		dma_resv_add_fence(&twin->buffer[job->declared[i].buffer].resv, job->finished,
				   added_usage(job->declared[i].access));
	drm_sched_entity_push_job(&job->base);
	put("armed %u\n", job->number);
}

/* Plans and arms a job in one, under the locks of all that it declares. */
void submit(struct words *line)
{
	struct job *job = read_job(line);
	u32 i, locked = 0;

	if (!check_job(job))
		return;
	for (; locked < job->declarations; locked++)
		if (!dma_resv_trylock(&twin->buffer[job->declared[locked].buffer].resv)) {
			refused_of(57, job->declared[locked].buffer);
			break;
		}
	if (locked == job->declarations && may_arm(job)) {
		plan_job(job);
		arm_job(job);
	}
	for (i = 0; i < locked; i++)
		dma_resv_unlock(&twin->buffer[job->declared[i].buffer].resv);
}
