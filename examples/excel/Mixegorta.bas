Attribute VB_Name = "Mixegorta"
Option Explicit
' Mixegorta in 64-bit Excel for Windows: price, option and sheet of a job text, by mixegorta.dll.
'
' THIS MODULE HAS NOT BEEN RUN IN EXCEL. What was run is the DLL, under Wine, by C programs that call it as the
' declarations below do; tools/test_excel.py compares these with the library's header. Try one of the examples whose
' sheet is known before you rely on it: README.md beside this file says how.
'
' The DLL stands in the workbook's own folder. A job text is one cell of lines, or a range of one line to a row, its
' words in one cell or several. On a worksheet:
'
'     =MixegortaBond(A1:B40)          the bond's price for a notional of one
'     =MixegortaOption(A1:B40)        the option's price
'     =MixegortaErrorBound(A1:B40)    how far either may be from the exact price on this tree, in billionths
'     =MixegortaSheet(A1:B40)         the whole sheet, where a cell has room for it
'     MixegortaShowSheet              as a macro: the sheet of the selected range on a worksheet of its own
'
' A refusal and a text that is not understood are shown in words in the place of a number.
'
' Windows' C returns a struct of more than eight bytes by an address that comes before the arguments, so each function
' that returns one is declared with the answer first, and gives that address back.

Private Const ONE As Double = 1000000000#
Private Const MOST_STEPS As Long = 255
Private Const SHEET_ROOM As Long = 468736
Private Const MAX_DISCOUNTS As Long = 3600
Private Const MAX_STATE_PRICES As Long = 3721
Private Const MOST_OF_A_CELL As Long = 32767
Private Const MOST_OF_FOUR_BYTES As LongLong = 4294967295^
Private Const NOT_UNDERSTOOD As Long = vbObjectError + 513

' struct mixegorta_written
Private Type Written
    number As LongLong
    size As LongLong
End Type

' struct mixegorta_price
Private Type Price
    number As LongLong
    value As LongLong
    bound As LongLong
End Type

' struct mixegorta_job_prices: of has_option the lowest byte is C's bool, the others mean nothing
Private Type JobPrices
    number As LongLong
    bond As Price
    has_option As LongLong
    option_price As Price
End Type

Private Declare PtrSafe Function mixegorta_version Lib "mixegorta.dll" () As LongLong
Private Declare PtrSafe Function mixegorta_sheet Lib "mixegorta.dll" (ByRef answer As Written, ByRef job As Byte, _
    ByVal job_len As LongLong, ByRef out As Byte, ByVal out_len As LongLong) As LongPtr
Private Declare PtrSafe Function mixegorta_prices_of_job Lib "mixegorta.dll" (ByRef answer As JobPrices, _
    ByRef job As Byte, ByVal job_len As LongLong, ByRef discounts As LongLong, ByVal discounts_len As LongLong, _
    ByRef state_prices As LongLong, ByVal state_prices_len As LongLong) As LongPtr
Private Declare PtrSafe Function LoadLibraryW Lib "kernel32" (ByVal path As LongPtr) As LongPtr

' A double and its bytes, the lowest first.
Private Type OneDouble
    figure As Double
End Type
Private Type EightBytes
    part(0 To 7) As Byte
End Type

' What a text says. A version of -1 and steps of -1 are not given.
Private Type JobText
    frequency As LongLong
    steps As LongLong
    reversion As LongLong
    volatility As LongLong
    version As LongLong
    quotes As Long
    kinds(1 To MOST_STEPS) As Byte
    figures(1 To MOST_STEPS) As Double
    flows As Long
    amounts(1 To MOST_STEPS) As LongLong
    words_of_option As String
End Type

' The job's bytes, and how many they are.
Private bytes() As Byte
Private count As Long

' ---- What a worksheet calls

Public Function MixegortaBond(ByVal given As Variant) As Variant
    Dim prices As JobPrices
    On Error GoTo told
    prices = PricesOf(given)
    MixegortaBond = CDbl(prices.bond.value) / ONE
    Exit Function
told:
    MixegortaBond = Err.Description
End Function

Public Function MixegortaOption(ByVal given As Variant) As Variant
    Dim prices As JobPrices
    On Error GoTo told
    prices = PricesOf(given)
    If (prices.has_option And 255) = 0 Then Err.Raise NOT_UNDERSTOOD, , "the text has no option"
    MixegortaOption = CDbl(prices.option_price.value) / ONE
    Exit Function
told:
    MixegortaOption = Err.Description
End Function

Public Function MixegortaErrorBound(ByVal given As Variant) As Variant
    Dim prices As JobPrices
    On Error GoTo told
    prices = PricesOf(given)
    MixegortaErrorBound = CDbl(prices.bond.bound)
    Exit Function
told:
    MixegortaErrorBound = Err.Description
End Function

Public Function MixegortaSheet(ByVal given As Variant) As Variant
    Dim sheet As String
    On Error GoTo told
    sheet = SheetOf(given)
    If Len(sheet) > MOST_OF_A_CELL Then
        Err.Raise NOT_UNDERSTOOD, , "the sheet is longer than a cell: run the macro MixegortaShowSheet"
    End If
    MixegortaSheet = sheet
    Exit Function
told:
    MixegortaSheet = Err.Description
End Function

Public Sub MixegortaShowSheet()
    Dim lines() As String, place As Long, target As Worksheet
    On Error GoTo told
    lines = Split(SheetOf(Selection), vbLf)
    Set target = ThisWorkbook.Worksheets.Add
    target.Columns(1).NumberFormat = "@"
    For place = 0 To UBound(lines)
        target.Cells(place + 1, 1).Value = lines(place)
    Next place
    Exit Sub
told:
    MsgBox Err.Description, vbExclamation, "Mixegorta"
End Sub

' ---- What the DLL answers

Private Sub LoadEngine()
    Static loaded As Boolean
    If loaded Then Exit Sub
    If LoadLibraryW(StrPtr(ThisWorkbook.path & "\mixegorta.dll")) = 0 Then
        Err.Raise NOT_UNDERSTOOD, , "there is no 64-bit mixegorta.dll in the workbook's folder"
    End If
    If mixegorta_version() <= 0 Then Err.Raise NOT_UNDERSTOOD, , "mixegorta.dll tells no version"
    loaded = True
End Sub

Private Function PricesOf(ByVal given As Variant) As JobPrices
    Dim discounts() As LongLong, state_prices() As LongLong, prices As JobPrices
    ReDim discounts(0 To MAX_DISCOUNTS - 1)
    ReDim state_prices(0 To MAX_STATE_PRICES - 1)
    LoadEngine
    WriteJob TextOf(given)
    mixegorta_prices_of_job prices, bytes(0), count, discounts(0), MAX_DISCOUNTS, state_prices(0), MAX_STATE_PRICES
    If prices.number <> 0 Then Err.Raise NOT_UNDERSTOOD, , Refusal(CLng(prices.number))
    PricesOf = prices
End Function

Private Function SheetOf(ByVal given As Variant) As String
    Dim room() As Byte, last() As Byte, answer As Written, place As Long, size As Long
    LoadEngine
    WriteJob TextOf(given)
    ReDim room(0 To SHEET_ROOM - 1)
    mixegorta_sheet answer, bytes(0), count, room(0), SHEET_ROOM
    If answer.number <> 0 Then Err.Raise NOT_UNDERSTOOD, , Refusal(CLng(answer.number))
    size = CLng(answer.size)
    ReDim last(0 To size - 1)
    For place = 0 To size - 1
        last(place) = room(SHEET_ROOM - size + place)
    Next place
    SheetOf = StrConv(last, vbUnicode)
End Function

Private Function Refusal(ByVal number As Long) As String
    Refusal = "refused " & number & ": " & Cause(number)
End Function

Private Function Cause(ByVal number As Long) As String
    Select Case number
        Case 1: Cause = "the job is malformed or longer than 4,700 bytes"
        Case 2: Cause = "the steps a year are not 1, 2, 4 or 12"
        Case 3: Cause = "the steps are outside 1 to 60"
        Case 4: Cause = "the reversion is above 6,000"
        Case 5: Cause = "the volatility is above 50,000"
        Case 6: Cause = "a length, row or node is not in the tree, a memory is too short, or the strikes are none" & _
            " or more than 16"
        Case 7: Cause = "a quote's kind, figure or discount is outside its limits, or the version is not 1 or 2"
        Case 8: Cause = "the nodes are too far apart"
        Case 9: Cause = "a node discount is 0 or above 1,100,000,000"
        Case 10: Cause = "a flow is above 2,000,000,000"
        Case 11: Cause = "the option's kind, side, expiry or strike is outside its limit"
        Case 12: Cause = "a value is above 8,000,000,000, or state prices sum above 2,000,000,100"
        Case 13: Cause = "the exercise dates are none, not strictly rising, or reach the last row"
        Case 14: Cause = "the asked nodes and those held are more than 3,600"
        Case 15: Cause = "the name is outside 1 to 8, already present at asking, not awaiting a commit at commit," & _
            " or absent at release or pricing"
        Case 16: Cause = "a band has an end before its start, or a haircut, start or end out of range, or there are" & _
            " more than 40 bands"
        Case 17: Cause = "a row and a price are in no band"
        Case 18: Cause = "a row and a price are in two or more bands"
        Case 19: Cause = "the steps of a pair are above 20, or its two trees differ in them"
        Case Else: Cause = "a refusal of a later version"
    End Select
End Function

' ---- From a text to a job's bytes

' The lines of a cell or a range. Numbers of cells are written with a point, whatever the country of the computer.
Private Function TextOf(ByVal given As Variant) As String
    Dim row As Long, column As Long, values As Variant, entry As String
    If IsObject(given) Then values = given.Value2 Else values = given
    If Not IsArray(values) Then
        TextOf = WordOf(values)
        Exit Function
    End If
    For row = LBound(values, 1) To UBound(values, 1)
        entry = ""
        For column = LBound(values, 2) To UBound(values, 2)
            entry = entry & " " & WordOf(values(row, column))
        Next column
        TextOf = TextOf & entry & vbLf
    Next row
End Function

Private Function WordOf(ByVal value As Variant) As String
    If IsError(value) Then Err.Raise NOT_UNDERSTOOD, , "a cell of the text has an error"
    If VarType(value) = vbDouble Then WordOf = Trim$(Str$(value)) Else WordOf = CStr(value)
End Function

Private Sub WriteJob(ByVal given As String)
    Dim text As JobText, words() As String, place As Long
    text = ReadText(given)
    ReDim bytes(0 To 32 + 18 * MOST_STEPS + Len(given))
    count = 0
    PutField 1, text.frequency, 1
    PutField 2, text.steps, 1
    PutField 3, text.reversion, 2
    PutField 4, text.volatility, 4
    If text.version >= 0 Then PutField 11, text.version, 1
    For place = 1 To text.quotes
        PutFigure text.kinds(place), text.figures(place)
    Next place
    For place = 1 To text.flows
        PutField 7, text.amounts(place), 4
    Next place
    words = Split(text.words_of_option, " ")
    If text.words_of_option <> "" Then PutOption words
End Sub

Private Function ReadText(ByVal given As String) As JobText
    Dim text As JobText, lines() As String, words() As String, place As Long, entry As String
    text.frequency = -1
    text.steps = -1
    text.reversion = -1
    text.volatility = -1
    text.version = -1
    lines = Split(Replace(Replace(given, vbCrLf, vbLf), vbCr, vbLf), vbLf)
    For place = 0 To UBound(lines)
        entry = Replace(Split(lines(place) & "#", "#")(0), vbTab, " ")
        Do While InStr(entry, "  ") > 0
            entry = Replace(entry, "  ", " ")
        Loop
        entry = Trim$(entry)
        words = Split(entry, " ")
        If entry <> "" Then ReadEntry text, words, "line " & (place + 1) & ": "
    Next place
    If text.frequency < 0 Or text.reversion < 0 Or text.volatility < 0 Then
        Err.Raise NOT_UNDERSTOOD, , "the text lacks frequency, reversion or volatility"
    End If
    If text.steps < 0 Then text.steps = text.quotes
    ReadText = text
End Function

Private Sub ReadEntry(ByRef text As JobText, ByRef words() As String, ByVal where As String)
    If UBound(words) < 1 Then Err.Raise NOT_UNDERSTOOD, , where & words(0) & " has no value"
    Select Case LCase$(words(0))
        Case "frequency": PutOnce text.frequency, words, 255, where
        Case "steps": PutOnce text.steps, words, 255, where
        Case "reversion", "pull": PutOnce text.reversion, words, 65535, where
        Case "volatility": PutOnce text.volatility, words, MOST_OF_FOUR_BYTES, where
        Case "version": PutOnce text.version, words, 255, where
        Case "discount": PutQuote text, 5, words, where
        Case "rate": PutQuote text, 6, words, where
        Case "yield": PutQuote text, 9, words, where
        Case "flow": PutFlow text, words, where
        Case "option"
            If text.words_of_option <> "" Then Err.Raise NOT_UNDERSTOOD, , where & "option is given twice"
            text.words_of_option = LCase$(Mid$(Join(words, " "), 8))
        Case Else: Err.Raise NOT_UNDERSTOOD, , where & words(0) & " is no entry of a job text"
    End Select
End Sub

Private Sub PutOnce(ByRef value As LongLong, ByRef words() As String, ByVal most As LongLong, ByVal where As String)
    If value >= 0 Then Err.Raise NOT_UNDERSTOOD, , where & words(0) & " is given twice"
    If UBound(words) <> 1 Then Err.Raise NOT_UNDERSTOOD, , where & words(0) & " has one value"
    value = Whole(words(1), most, where)
End Sub

' How often a value stands: once, or as `VALUE x COUNT` says.
Private Function Repeated(ByRef words() As String, ByVal where As String) As Long
    Repeated = 1
    If UBound(words) = 1 Then Exit Function
    If UBound(words) <> 3 Then Err.Raise NOT_UNDERSTOOD, , where & "write VALUE or VALUE x COUNT"
    If words(2) <> "x" Then Err.Raise NOT_UNDERSTOOD, , where & "write VALUE or VALUE x COUNT"
    Repeated = CLng(Whole(words(3), MOST_STEPS, where))
End Function

Private Sub PutQuote(ByRef text As JobText, ByVal kind As Byte, ByRef words() As String, ByVal where As String)
    Dim again As Long
    If words(1) Like "*[!0-9.eE+-]*" Then Err.Raise NOT_UNDERSTOOD, , where & words(1) & " is no number such as 0.03"
    For again = 1 To Repeated(words, where)
        If text.quotes = MOST_STEPS Then Err.Raise NOT_UNDERSTOOD, , where & "there are too many quotes"
        text.quotes = text.quotes + 1
        text.kinds(text.quotes) = kind
        text.figures(text.quotes) = Val(words(1))
    Next again
End Sub

Private Sub PutFlow(ByRef text As JobText, ByRef words() As String, ByVal where As String)
    Dim again As Long, amount As LongLong
    amount = Billionths(words(1), where)
    For again = 1 To Repeated(words, where)
        If text.flows = MOST_STEPS Then Err.Raise NOT_UNDERSTOOD, , where & "there are too many flows"
        text.flows = text.flows + 1
        text.amounts(text.flows) = amount
    Next again
End Sub

Private Function Whole(ByVal word As String, ByVal most As LongLong, ByVal where As String) As LongLong
    If word = "" Or Len(word) > 10 Or word Like "*[!0-9]*" Then
        Err.Raise NOT_UNDERSTOOD, , where & word & " is no whole number from 0 to " & most
    End If
    Whole = CLngLng(word)
    If Whole > most Then Err.Raise NOT_UNDERSTOOD, , where & word & " is above " & most
End Function

' An amount in billionths, exactly: no fraction is ever a floating-point number.
Private Function Billionths(ByVal word As String, ByVal where As String) As LongLong
    Dim parts() As String
    parts = Split(word & ".", ".")
    If UBound(parts) > 2 Or word = "." Or word = "" Or word Like "*[!0-9.]*" Then
        Err.Raise NOT_UNDERSTOOD, , where & word & " is no amount such as 1.025"
    End If
    If Len(parts(1)) > 9 Then Err.Raise NOT_UNDERSTOOD, , where & word & " has more than 9 decimals"
    If Len(parts(0)) > 3 Then Err.Raise NOT_UNDERSTOOD, , where & word & " is above 4.294967295"
    Billionths = CLngLng("0" & parts(0) & Left$(parts(1) & "000000000", 9))
    If Billionths > MOST_OF_FOUR_BYTES Then Err.Raise NOT_UNDERSTOOD, , where & word & " is above 4.294967295"
End Function

' ---- The fields of a job: a tag, two bytes of length, and the data, high byte first

Private Sub AddBytes(ByVal value As LongLong, ByVal length As Long)
    Dim place As Long
    For place = length - 1 To 0 Step -1
        bytes(count + place) = CByte(value Mod 256)
        value = value \ 256
    Next place
    count = count + length
End Sub

Private Sub PutField(ByVal tag As Long, ByVal value As LongLong, ByVal length As Long)
    AddBytes tag, 1
    AddBytes length, 2
    AddBytes value, length
End Sub

Private Sub PutFigure(ByVal kind As Byte, ByVal figure As Double)
    Dim given As OneDouble, eight As EightBytes, place As Long
    given.figure = figure
    LSet eight = given
    AddBytes kind, 1
    AddBytes 8, 2
    For place = 7 To 0 Step -1
        AddBytes eight.part(place), 1
    Next place
End Sub

Private Sub PutOption(ByRef words() As String)
    Dim side As Long, place As Long
    If UBound(words) < 2 Then
        Err.Raise NOT_UNDERSTOOD, , "option: write STYLE KIND EXPIRY STRIKE, or dated KIND STRIKE ROWS"
    End If
    If words(1) = "call" Then side = 1
    If words(1) = "put" Then side = 2
    If side = 0 Then Err.Raise NOT_UNDERSTOOD, , "an option is call or put, not " & words(1)
    Select Case words(0)
        Case "dated"
            AddBytes 10, 1
            AddBytes 5 + UBound(words) - 2, 2
            AddBytes side, 1
            AddBytes Billionths(words(2), "option: "), 4
            For place = 3 To UBound(words)
                AddBytes Whole(words(place), 255, "option: "), 1
            Next place
        Case "european": PutOptionOfKind side, words
        Case "american": PutOptionOfKind side + 2, words
        Case Else: Err.Raise NOT_UNDERSTOOD, , "an option is european, american or dated, not " & words(0)
    End Select
End Sub

Private Sub PutOptionOfKind(ByVal kind As Long, ByRef words() As String)
    If UBound(words) <> 3 Then Err.Raise NOT_UNDERSTOOD, , "option: write STYLE KIND EXPIRY STRIKE"
    AddBytes 8, 1
    AddBytes 6, 2
    AddBytes kind, 1
    AddBytes Whole(words(2), 255, "option: "), 1
    AddBytes Billionths(words(3), "option: "), 4
End Sub
