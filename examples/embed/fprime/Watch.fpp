module Mission {
  @ The value of a signal: a Boolean is 0 or 1, an integer has 32 bits
  port Sample(value: I64)

  @ Watches requirements over telemetry
  passive component Watch {
    @ The last value of each signal, one port for each column of the program
    guarded input port sampleIn: [2] Sample
    guarded input port schedIn: Svc.Sched
    event port eventOut
    text event port textEventOut
    time get port timeGetOut

    event NoMonitor(why: string size 96) severity fatal format "no monitor: {}"
    event NoRow(code: U32, column: U32) severity warning high format "row not taken: code {}, column {}"
    event RequirementFalse(output: U32, $time: U64) severity warning high format "requirement {} false up to row {}" throttle 20
  }
}
