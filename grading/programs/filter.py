"""Prints a filter of system calls that namespaces leave open, by Debian's python3, which has python3-seccomp."""
import errno
import socket
import sys

import seccomp

DENIED = """
memfd_create memfd_secret shmget shmat shmdt shmctl semget semop semtimedop semctl msgget msgsnd msgrcv msgctl mq_open
io_uring_setup io_uring_enter io_uring_register add_key request_key keyctl bpf perf_event_open userfaultfd ptrace
process_vm_readv process_vm_writev pidfd_getfd kcmp sched_setaffinity sched_setscheduler sched_setparam sched_setattr
setpriority unshare setns mount umount2 pivot_root move_mount open_tree fsopen fsconfig fsmount fspick mount_setattr
quotactl fanotify_init inotify_init inotify_init1 open_by_handle_at name_to_handle_at syslog
"""
REFUSED = seccomp.ERRNO(errno.EPERM)

made = seccomp.SyscallFilter(seccomp.ALLOW)     # calls of another architecture end the program
for name in DENIED.split():
    made.add_rule(REFUSED, name)
# Of sockets a network namespace confines these families alone.
for name in "socket", "socketpair":
    for family in set(range(socket.AF_INET6)) - {socket.AF_UNSPEC, socket.AF_UNIX, socket.AF_INET}:
        made.add_rule(REFUSED, name, seccomp.Arg(0, seccomp.EQ, family))
    made.add_rule(REFUSED, name, seccomp.Arg(0, seccomp.GT, socket.AF_INET6))
made.export_bpf(sys.stdout)
