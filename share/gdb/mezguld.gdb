# Settings and commands of GDB for `dm gdb`, without Python; mezguld.py beside this file has more of them.
#
#     gdb -x mezguld.gdb -ex 'symbol-file PROGRAM.elf' -ex 'dm connect PROGRAM.COM'

# The machine is an 8086. GDB would choose otherwise for an ELF file with the program's symbols.
set osabi none
set architecture i8086
# How long GDB waits for an answer, in seconds.
set remotetimeout 30
# The signal with which `dm gdb` tells that a `continue` made its most steps; GDB goes on then.
handle SIGALRM nostop noprint pass

define-prefix dm
document dm
Commands for programs under dm gdb.
end

define dm connect
  target extended-remote | dm gdb $arg0
end
document dm connect
dm connect FILE: starts dm gdb with the program FILE and connects to it.
For more files and options: target extended-remote | dm gdb OPTIONS FILES
end

define dm over
  set $dm_sp = $esp
  x/2i $pc
  tbreak *$_ if $esp >= $dm_sp
  continue
end
document dm over
Steps over the CALL, INT, REP or LOOP at CS:IP, to the instruction after it.
end

define dm break
  break *($arg0 * 16 + $arg1)
end
document dm break
dm break SEGMENT OFFSET: sets a breakpoint at SEGMENT:OFFSET, as in: dm break 0x103 0x119, or: dm break $cs 0x119
end

define dm int
  break *(*(unsigned short *)($arg0 * 4 + 2) * 16 + *(unsigned short *)($arg0 * 4))
end
document dm int
dm int N: sets a breakpoint where interrupt N leads now, as in: dm int 0x21
end

define dm go
  monitor step $arg0
  maintenance flush register-cache
  maintenance flush dcache
  frame
end
document dm go
dm go N: goes to the state after N steps from the start, forwards or back; N in hexadecimal.
It does not stop at breakpoints.
end

define dm check
  monitor check
  maintenance flush register-cache
  maintenance flush dcache
  frame
end
document dm check
Goes to the next step in which the checker finds something, without stopping at breakpoints, and prints that.
end

define dm blocks
  monitor M
end
document dm blocks
Lists the blocks of memory of DOS.
end
