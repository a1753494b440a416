"""A booking program: the plates that a job needs whatever else is chosen, and those that it never does."""

import planner

# Sheet 4 is printed exactly if tiles 0, 1 and 2, of 4, 3 and 2 panels, fill 6 of it. It is booked.
job = planner.Job(5)
job.threshold(4, 6).term(0, 4).term(1, 3).term(2, 2)
job.seal().mark_sure(4).settle()

for node, value in planner.plan(job).forced().items():
    print("book" if value else "leave out", node)
