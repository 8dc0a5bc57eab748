#!/usr/bin/env bash
# Checks a campaign as a Slurm job array, in which each task has a share of the recordings:
#
#     sbatch tools/campaign.sbatch
#
# A recording needs about two processors; see docs/CAMPAIGNS.md.
#SBATCH --job-name=apexcheck
#SBATCH --array=0-19
#SBATCH --cpus-per-task=4
set -euo pipefail
exec tools/campaign --jobs "$(((SLURM_CPUS_PER_TASK + 1) / 2))" --shares "$SLURM_ARRAY_TASK_COUNT" --share "$SLURM_ARRAY_TASK_ID" recordings results
