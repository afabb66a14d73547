# What sqlite_tests runs before a test on the mount: HERE is the test's folder, and at PORT a new node is asked for.
set litefs(here) $::env(HERE)
set litefs(port) $::env(PORT)
set litefs(ours) {test.db test.db-journal test.db-wal test.db-shm}
proc litefs_ours {path} { expr {[file_plain dirname [file_plain normalize $path]] eq $::litefs(here) && [file_plain tail $path] in $::litefs(ours)} }
proc litefs_ask {words} {
  set link [socket localhost $::litefs(port)]; puts $link $words; flush $link; set said [gets $link]; close $link
  if {$said ne "ok"} { error $said }
}
proc litefs_is_new {} {
  if {[file_plain exists test.db] && [file_plain size test.db] > 0} { return 0 }
  foreach it {test.db-journal test.db-wal} { if {[file_plain exists $it]} { return 0 } }
  return 1
}
rename file file_plain
proc file {word args} {
  if {$word eq "delete"} {
    set rest {}
    foreach it $args {
      if {[string match -* $it] || ![litefs_ours $it]} { lappend rest $it } elseif {[file_plain tail $it] eq "test.db"} {
        if {![litefs_is_new]} { litefs_ask new }
      } else { catch {file_plain delete [file_plain readlink $it]} }
    }
    return [file_plain delete {*}$rest]
  }
  if {$word in {copy rename}} {
    lassign [lrange $args end-1 end] from to
    if {[litefs_ours $to]} {
      if {[file_plain tail $to] eq "test.db"} { litefs_ask "import [file_plain normalize $from]" }
      return
    }
    if {[litefs_ours $from]} { exec cp $from $to; return }
  }
  uplevel 1 [list file_plain $word {*}$args]
}
rename open open_plain
proc open {path args} {
  if {[litefs_ours $path] && [string match {*[wa+]*} [lindex $args 0]]} { return [open_plain /dev/null {*}$args] }
  open_plain $path {*}$args
}
foreach it {hexio_write truncate_file} { if {[info commands $it] ne ""} {
  rename $it ${it}_plain
  proc $it {path args} [string map [list IT $it] { if {![litefs_ours $path]} { IT_plain $path {*}$args } }]
} }
proc sqlite3_test_control_pending_byte {at} { return 1073741824 }
