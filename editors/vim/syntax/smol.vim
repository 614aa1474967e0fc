" Vim syntax file: configurations of smol. Made by editors/make; change that.
if exists("b:current_syntax")
  finish
endif
syntax case match
syntax iskeyword @,48-57,_
syntax match smolUnknown /^\s*\zs\S\+/
syntax match smolNumber /\%(^\|\s\)\@<=[+-]\?\%(\d\+\.\?\d*\|\.\d\+\)\%([eE][+-]\?\d\{1,3}\)\?\ze\%(\s\|#\|$\)/
syntax match smolOperator /\%(^\|\s\)\@<=\%(<\?->\|+\)\ze\%(\s\|#\|$\)/
syntax region smolString start=/"/ end=/"/ oneline contained
syntax match smolConstant /\%(\S\s\+\)\@<=\%(front\|back\|both\|reflect\|absorb\|transmit\|jump\|rect\|all\|empty\|stdout\|stderr\|serial\|nearest\|offset\|unbindrad\)\ze\%(\s\|#\|$\)/
syntax match smolStatement /^\s*\zsdim\ze\%(\s\|#\|$\)/
syntax match smolStatement /^\s*\zsspecies\ze\%(\s\|#\|$\)/
syntax match smolStatement /^\s*\zsdifc\ze\%(\s\|#\|$\)/
syntax match smolStatement /^\s*\zsdifstep\ze\%(\s\|#\|$\)/
syntax match smolStatement /^\s*\zstime_start\ze\%(\s\|#\|$\)/
syntax match smolStatement /^\s*\zstime_stop\ze\%(\s\|#\|$\)/
syntax match smolStatement /^\s*\zstime_step\ze\%(\s\|#\|$\)/
syntax match smolStatement /^\s*\zsmax_mol\ze\%(\s\|#\|$\)/
syntax match smolStatement /^\s*\zsrandom_seed\ze\%(\s\|#\|$\)/
syntax match smolStatement /^\s*\zspair_order\ze\%(\s\|#\|$\)/
syntax match smolStatement /^\s*\zsboundaries\ze\%(\s\|#\|$\)/
syntax match smolStatement /^\s*\zsmol\ze\%(\s\|#\|$\)/
syntax match smolStatement /^\s*\zscompartment_mol\ze\%(\s\|#\|$\)/
syntax match smolStatement /^\s*\zsreaction\ze\%(\s\|#\|$\)/
syntax match smolStatement /^\s*\zsbinding_radius\ze\%(\s\|#\|$\)/
syntax match smolStatement /^\s*\zsreaction_probability\ze\%(\s\|#\|$\)/
syntax match smolStatement /^\s*\zsproduct_placement\ze\%(\s\|#\|$\)/
syntax match smolStatement /^\s*\zsstart_surface\ze\%(\s\|#\|$\)/
syntax match smolStatement /^\s*\zsaction\ze\%(\s\|#\|$\)/
syntax match smolStatement /^\s*\zspanel\ze\%(\s\|#\|$\)/
syntax match smolStatement /^\s*\zsjump\ze\%(\s\|#\|$\)/
syntax match smolStatement /^\s*\zsend_surface\ze\%(\s\|#\|$\)/
syntax match smolStatement /^\s*\zsstart_compartment\ze\%(\s\|#\|$\)/
syntax match smolStatement /^\s*\zssurface\ze\%(\s\|#\|$\)/
syntax match smolStatement /^\s*\zspoint\ze\%(\s\|#\|$\)/
syntax match smolStatement /^\s*\zsend_compartment\ze\%(\s\|#\|$\)/
syntax match smolStatement /^\s*\zsoutput_files\ze\%(\s\|#\|$\)/
syntax match smolStatement /^\s*\zscmd\ze\%(\s\|#\|$\)/
syntax match smolStatement /^\s*\zsend_file\ze\%(\s\|#\|$\)/
syntax match smolDirective /^\s*\zsread_file\ze\%(\s\|#\|$\)/
syntax match smolDirective /^\s*\zsifdefine\ze\%(\s\|#\|$\)/
syntax match smolDirective /^\s*\zsifundefine\ze\%(\s\|#\|$\)/
syntax match smolDirective /^\s*\zselse\ze\%(\s\|#\|$\)/
syntax match smolDirective /^\s*\zsendif\ze\%(\s\|#\|$\)/
syntax match smolDirective /^\s*\zsdefine\ze\%(\s\|#\|$\)/
syntax match smolDirective /^\s*\zsundefine\ze\%(\s\|#\|$\)/
syntax match smolPassedOver /^\s*\zsgraphics\ze\%(\s\|#\|$\)/
syntax match smolPassedOver /^\s*\zsgraphic_iter\ze\%(\s\|#\|$\)/
syntax match smolPassedOver /^\s*\zsgraphic_delay\ze\%(\s\|#\|$\)/
syntax match smolPassedOver /^\s*\zsquit_at_end\ze\%(\s\|#\|$\)/
syntax match smolPassedOver /^\s*\zsframe_thickness\ze\%(\s\|#\|$\)/
syntax match smolPassedOver /^\s*\zsframe_color\ze\%(\s\|#\|$\)/
syntax match smolPassedOver /^\s*\zsframe_colour\ze\%(\s\|#\|$\)/
syntax match smolPassedOver /^\s*\zsgrid_thickness\ze\%(\s\|#\|$\)/
syntax match smolPassedOver /^\s*\zsgrid_color\ze\%(\s\|#\|$\)/
syntax match smolPassedOver /^\s*\zsgrid_colour\ze\%(\s\|#\|$\)/
syntax match smolPassedOver /^\s*\zsbackground_color\ze\%(\s\|#\|$\)/
syntax match smolPassedOver /^\s*\zsbackground_colour\ze\%(\s\|#\|$\)/
syntax match smolPassedOver /^\s*\zsdisplay_size\ze\%(\s\|#\|$\)/
syntax match smolPassedOver /^\s*\zscolor\ze\%(\s\|#\|$\)/
syntax match smolPassedOver /^\s*\zscolour\ze\%(\s\|#\|$\)/
syntax match smolPassedOver /^\s*\zslight\ze\%(\s\|#\|$\)/
syntax match smolPassedOver /^\s*\zstext_color\ze\%(\s\|#\|$\)/
syntax match smolPassedOver /^\s*\zstext_colour\ze\%(\s\|#\|$\)/
syntax match smolPassedOver /^\s*\zstext_display\ze\%(\s\|#\|$\)/
syntax match smolPassedOver /^\s*\zstiff_iter\ze\%(\s\|#\|$\)/
syntax match smolPassedOver /^\s*\zstiff_name\ze\%(\s\|#\|$\)/
syntax match smolPassedOver /^\s*\zstiff_min\ze\%(\s\|#\|$\)/
syntax match smolPassedOver /^\s*\zstiff_max\ze\%(\s\|#\|$\)/
syntax match smolPassedOver /^\s*\zspolygon\ze\%(\s\|#\|$\)/
syntax match smolPassedOver /^\s*\zsthickness\ze\%(\s\|#\|$\)/
syntax match smolPassedOver /^\s*\zsstipple\ze\%(\s\|#\|$\)/
syntax match smolPassedOver /^\s*\zsshininess\ze\%(\s\|#\|$\)/
syntax match smolPassedOver /^\s*\zsmax_species\ze\%(\s\|#\|$\)/
syntax match smolPassedOver /^\s*\zsmax_panels\ze\%(\s\|#\|$\)/
syntax match smolPassedOver /^\s*\zsmolecule_lists\ze\%(\s\|#\|$\)/
syntax match smolPassedOver /^\s*\zsmol_list\ze\%(\s\|#\|$\)/
syntax match smolPassedOver /^\s*\zsaccuracy\ze\%(\s\|#\|$\)/
syntax match smolPassedOver /^\s*\zsmolperbox\ze\%(\s\|#\|$\)/
syntax match smolPassedOver /^\s*\zsboxsize\ze\%(\s\|#\|$\)/
syntax match smolPassedOver /^\s*\zsepsilon\ze\%(\s\|#\|$\)/
syntax match smolPassedOver /^\s*\zsmargin\ze\%(\s\|#\|$\)/
syntax match smolPassedOver /^\s*\zsneighbor_dist\ze\%(\s\|#\|$\)/
syntax match smolLeftOut /^\s*\zslow_wall\ze\%(\s\|#\|$\)/
syntax match smolLeftOut /^\s*\zshigh_wall\ze\%(\s\|#\|$\)/
syntax match smolLeftOut /^\s*\zsoutput_root\ze\%(\s\|#\|$\)/
syntax match smolLeftOut /^\s*\zsoutput_precision\ze\%(\s\|#\|$\)/
syntax match smolLeftOut /^\s*\zsappend_files\ze\%(\s\|#\|$\)/
syntax match smolLeftOut /^\s*\zsstart_port\ze\%(\s\|#\|$\)/
syntax match smolLeftOut /^\s*\zsstart_lattice\ze\%(\s\|#\|$\)/
syntax match smolLeftOut /^\s*\zsstart_filament\ze\%(\s\|#\|$\)/
syntax match smolLeftOut /^\s*\zsstart_reaction\ze\%(\s\|#\|$\)/
syntax match smolLeftOut /^\s*\zsdrift\ze\%(\s\|#\|$\)/
syntax match smolLeftOut /^\s*\zsdifm\ze\%(\s\|#\|$\)/
syntax match smolLeftOut /^\s*\zssurface_mol\ze\%(\s\|#\|$\)/
syntax match smolLeftOut /^\s*\zsreaction_rate\ze\%(\s\|#\|$\)/
syntax match smolLeftOut /^\s*\zsrate\ze\%(\s\|#\|$\)/
syntax match smolLeftOut /^\s*\zsunbounded_emitter\ze\%(\s\|#\|$\)/
syntax match smolLeftOut /^\s*\zscompartment\ze\%(\s\|#\|$\)/
syntax match smolLeftOut /^\s*\zsset\ze\%(\s\|#\|$\)/
syntax region smolCmd start=/^\s*cmd\ze\%(\s\|#\|$\)/ end=/$/ oneline transparent keepend contains=smolCmdWord,smolTiming,smolCommand,smolConstant,smolNumber,smolString,smolComment
syntax match smolCmdWord /^\s*\zscmd\ze\%(\s\|#\|$\)/ contained
syntax match smolTiming /\%(^\s*cmd\s\+\)\@<=\%(b\|a\|e\|E\|n\|N\|@\|i\|j\)\ze\s/ contained
syntax keyword smolCommand contained molcountspace molmoments meansqrdist radialcount molcountheader molcount molcountincmpt listmols molpos echo killmol killmolprob replacemol pointsource stop ifno ifless ifmore
syntax match smolComment /#.*/
syntax region smolBlockComment start=/^\s*\/\*\%(\s.*\|#.*\)\?$/ end=/^\s*\*\/\%(\s.*\|#.*\)\?$/
syntax region smolBehindTheEnd matchgroup=smolStatement start=/^\s*\zsend_file\ze\%(\s\|#\|$\)/ end=/\%$/
syntax sync fromstart
highlight default link smolStatement Statement
highlight default link smolDirective Macro
highlight default link smolPassedOver PreProc
highlight default link smolLeftOut Error
highlight default link smolCommand Function
highlight default link smolTiming Special
highlight default link smolConstant Constant
highlight default link smolCmdWord Statement
highlight default link smolUnknown Error
highlight default link smolNumber Number
highlight default link smolOperator Operator
highlight default link smolString String
highlight default link smolComment Comment
highlight default link smolBlockComment Comment
highlight default link smolBehindTheEnd Comment
let b:current_syntax = "smol"
