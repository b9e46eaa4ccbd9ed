" Colours of .st files of plcsafe; made by tools/colours.py.
if exists("b:current_syntax")
  finish
endif
syntax case ignore
syntax match plcsafeOperator /:=\|&/
syntax keyword plcsafePin Activate S_ChannelA S_ChannelB DiscrepancyTime S_EquivalentOut Ready Error S_ChannelNC S_ChannelNO S_AntivalentOut S_EStopIn S_StartReset S_AutoReset Reset S_EStopOut S_ESPE_In S_ESPE_Out S_Mode0 S_Mode1 S_Mode2 S_Mode3 S_Mode4 S_Mode5 S_Mode6 S_Mode7 S_Unlock S_SetMode AutoSetMode ModeMonitorTime S_Mode0Sel S_Mode1Sel S_Mode2Sel S_Mode3Sel S_Mode4Sel S_Mode5Sel S_Mode6Sel S_Mode7Sel S_AnyModeSel S_Button1 S_Button2 S_TwoHandOut S_GuardSwitch1 S_GuardSwitch2 S_GuardMonitoring S_SafetyActive S_GuardLock UnlockRequest S_GuardLocked S_UnlockGuard S_EnableSwitchCh1 S_EnableSwitchCh2 S_EnableSwitchOut S_OpMode S_Acknowledge MonitoringTime S_SafetyRequest S_SafeControl ProcessControl StaticControl S_OutControl S_EDM1 S_EDM2 S_EDM_Out
syntax keyword plcsafeKind SF_Equivalent SF_Antivalent SF_EmergencyStop SF_ESPE SF_ModeSelector SF_TwoHandControlTypeII SF_TwoHandControlTypeIII SF_GuardMonitoring SF_GuardLocking SF_EnableSwitch SF_SafetyRequest SF_OutControl SF_EDM
syntax keyword plcsafeType SAFEBOOL BOOL TIME
syntax keyword plcsafeConstant TRUE FALSE
syntax keyword plcsafeKeyword PROGRAM END_PROGRAM VAR_INPUT VAR_OUTPUT VAR END_VAR AND OR FUNCTION_BLOCK END_FUNCTION_BLOCK
syntax match plcsafeTime /\<\(T\|TIME\)#[0-9A-Za-z_.]\+/
syntax match plcsafeComment /\/\/.*$/
syntax region plcsafeComment start=/(\*/ end=/\*)/
highlight default link plcsafeTime Number
highlight default link plcsafeKeyword Statement
highlight default link plcsafeConstant Constant
highlight default link plcsafeType Type
highlight default link plcsafeKind Structure
highlight default link plcsafePin Identifier
highlight default link plcsafeOperator Operator
highlight default link plcsafeComment Comment
let b:current_syntax = "plcsafe"
